#!/usr/bin/env python3
"""The second reader of facts over every program of the tests, or others: each is built and recorded once, and
each fact of its pages is read again. It takes a quarter of an hour, so the gate doesn't run it; ends with the
line 'N facts confirmed, N refused'.

    by_hand_facts.py SHB [FILE..]

What doesn't build by itself is named and left out, and so is what leaves no results in a minute.
"""

import collections
import json
import os
import pathlib
import sys
import tempfile

HERE = pathlib.Path(__file__).resolve().parent
sys.dont_write_bytecode = True
sys.path[:0] = [str(HERE), *(str(HERE.parents[1] / name) for name in ("tests", "python"))]

import facts_reader
import recorder


def facts_in(results):
    """The faults of each fact of a folder of results."""
    document, by = json.loads((results / "places.json").read_text()), collections.defaultdict(list)
    for fact, pairs in facts_reader.groups_of(document):
        by[fact["trace"]].append((fact, pairs))
    for trace, groups in by.items():
        reader = facts_reader.Reader(
            *((results / trace).with_suffix(suffix).read_bytes() for suffix in (".std", ".stacks", ".uses")))
        for fact, pairs in groups:
            yield fact["form"], list(reader.faults([(fact, pairs)]))


def record(source, folder):
    """Builds and records a program, and gives the folder of its results, or None."""
    compiler = "gcc" if source.suffix == ".c" else "g++"
    more = ["-fopenmp"] * ("omp" in source.read_text(errors="replace"))
    if recorder.call(compiler, "-w", "-g", "-O1", "-fsanitize=thread", "-pthread", *more, source, "-o",
                     folder / "program", "-ldl").returncode:
        return None
    recorder.call("timeout", "-k", "5", "60", recorder.COMMAND, "-o", folder / "results", folder / "program",
                  cwd=folder,
                  env={**os.environ, "SHB": str(recorder.SHB)})
    return folder / "results" if (folder / "results" / "places.json").exists() else None


def main(shb, *files):
    recorder.SHB = pathlib.Path(shb).resolve()
    named = [pathlib.Path(file).resolve() for file in files]
    sources = named or [path for name in ("programs", "blamed", "remedied")
                        for path in sorted((HERE / name).glob("*.c*"))]
    forms, refused = collections.Counter(), 0
    with tempfile.TemporaryDirectory() as room:
        recorder.build_recorder(pathlib.Path(room))
        for source in sources:
            with tempfile.TemporaryDirectory() as folder:
                results = record(source, pathlib.Path(folder))
                for form, faults in facts_in(results) if results else ():
                    forms[form] += 1
                    refused += bool(faults)
                    print(*(f"{source.name}: {fault}\n" for fault in faults), sep="", end="", flush=True)
                print(f"{source.name}: {'read' if results else 'no results'}", flush=True)
    print(dict(forms))
    print(f"{sum(forms.values()) - refused} facts confirmed, {refused} refused")
    return 1 if refused or not forms else 0


if __name__ == "__main__":
    sys.exit(main(*sys.argv[1:]) if len(sys.argv) > 1 else __doc__)
