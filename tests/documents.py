#!/usr/bin/env python3
"""Finds in the documents what the repository doesn't have: names in back quotes, files, links, headings,
commits, and numbers of lines. Also finds where a document, a paragraph or a sentence is too long, and where
docs/*.md and READMEs together are. Ends with the line 'N passed, N failed'.

Documents are the files *.md. A word in back quotes has to occur in another file of the repository, in the
name of one, or in OUTSIDE, and `crate::word` in that crate. A path has to be the end of a file's or folder's
path, or stand in MADE; in it NAME, F and the like, '*' and what stands in braces are any text. In code blocks
only paths below the folders of the repository are looked at.
"""

import fnmatch
import pathlib
import re
import subprocess
import sys
import tempfile

ROOT = pathlib.Path(__file__).resolve().parent.parent
OWN = "tests/documents.py"  # its texts name what isn't there

# Words of the outside world that no file of the repository has, by where they come from.
OUTSIDE = {
    "words and messages of rt": "axioms holes incremental nearest proposition rattle tidy",
    "modules and words of the kit's library": "IsOk Mem le_bytes Display",
    "commands and packages of Linux": "callgrind poppler valgrind",
    "a message of Slurm": "Duplicate jobid",
    "options of gcc": "func instrument lubsan param",
    "settings of CMake, Meson and make":
        "DCMAKE_CXX_FLAGS DCMAKE_C_FLAGS DCMAKE_CROSSCOMPILING_EMULATOR Db_sanitize LDFLAGS buildtype "
        "debugoptimized",
    "programs that run tests, and their options": "copt ctest dbg linkopt meson pytest run_under "
        "sandbox_writable_path wrapper",
    "options of ThreadSanitizer": "exitcode halt_on_error history_size log_path",
    "names of ThreadSanitizer's that the recorder leaves out":
        "__interceptor_* __sanitizer_syscall_pre_* _post_*",
    "others of these, and one that it makes by macros": "__tsan_default_suppressions __tsan_read4_pc",
    "a descriptor": "fd5",
    "words of services": "gitlab matrix",
}

# Files and folders that commands make, and files of the reader's own.
MADE = {
    "make build": "bin",
    "make recorder, make install": "bin lib share",
    "make dist": "PROVED.md",
    "rt": "out",
    "shb-record, shb-farm": "made-by-shb-record.txt places.txt runN.PROCESS.std",
    "the reader's own": "app app.std app.report configure races.yml util.c",
}

# The most lines of a document, and the most words of a sentence in it.
LENGTHS = {"README.md": (110, 25), "docs/GUIDE.md": (245, 25), "docs/RECORDER.md": (240, 35),
           "recorder/README.md": (70, 35)}
MOST_OF_PARAGRAPH = 80      # words of a paragraph or an item; tables and code are none
MOST_OF_ALL = 34000         # words of docs/*.md and READMEs together, as `wc -w` counts

IS_OUTSIDE = {word for words in OUTSIDE.values() for word in words.split()}
IS_MADE = {name for names in MADE.values() for name in names.split()}

WORD = re.compile(r"[^\W\d]\w+")
STARRED = re.compile(r"(?<![\w*])(?:[^\W\d]|\*\w)[\w*]+")
QUOTED = re.compile(r"(`+)(.+?)\1", re.S)
LINK = re.compile(r"\[[^\]]*\]\(([^)\s]+)\)")
HEADING = re.compile(r"^#+ +(.*)$", re.M)
BLOCK = re.compile(r"^```[\s\S]*?^```$|(?:^(?: {4}|\t)[^\n]*\n)+", re.M)
COMMIT = re.compile(r"(?=[a-f]*\d)[0-9a-f]{7,40}")
PLACEHOLDER = re.compile(r"\b(?:DIR|F|FILE|FOLDER|M|N|NAME|PROCESS|VERSION|WHAT)\b|\{[^}]*\}")
SUFFIXES = ("antt", "c", "cc", "css", "edit", "h", "js", "md", "png", "py", "report", "rt", "sh", "std",
            "sums", "txt")
NAMES_FILE = re.compile(r"[\w*{},.<>-]+\.(?:%s)" % "|".join(SUFFIXES))
COUNTED = re.compile(r"`([^`]+)` \((\d[\d,]*) lines\b")
ROW = re.compile(r"^\| `([^` ]+\.\w+)` \| (\d[\d,]*) \|", re.M)
# where no sentence goes on: a paragraph, an item, a heading, a cell
PART = re.compile(r"\n\s*\n|\n(?=[-#|])|\|\s")
SENTENCE_END = re.compile(r"(?<=[.!?])[\"')*`]*\s+")
SUM = re.compile(r"(\d[\d,]*) files, (\d[\d,]*) lines[^\n]*\n\n((?:\|.*\n)+)")


def number(text):
    return int(text.replace(",", ""))


class Repository:
    """The files of a folder, the words in those that aren't documents, and the commits before
    the present one."""

    def __init__(self, root, paths, commits=None):
        """`paths` are the files to look at, from `root`; `commits` says of a name whether it is a commit."""
        self.root, self.paths, self.has_commit = root, paths, commits or (lambda name: True)
        self.documents = [path for path in paths if path.endswith(".md")]
        self.places = set(paths) | {str(parent) for path in paths
                                    for parent in pathlib.PurePath(path).parents}
        self.words, self.of_crate = set(), {}
        for path in paths:
            self.add(path)

    def add(self, path):
        """Notes the words of a file and of its name."""
        found = set(WORD.findall(path)) | {part for word in WORD.findall(path) for part in word.split("_")}
        if path not in self.documents and path != OWN:
            found |= set(WORD.findall((self.root / path).read_text(errors="replace")))
        self.words |= found
        parts = path.split("/")
        if parts[0] == "crates" and len(parts) > 2:
            self.of_crate.setdefault(parts[1], set()).update(found)

    def has_word(self, word):
        """Whether a word occurs, perhaps as the name of a test, or one that it stands for with its stars."""
        is_known = word in self.words or "test_" + word in self.words or word in IS_OUTSIDE
        return is_known or ("*" in word and any(fnmatch.fnmatchcase(known, word) for known in self.words))

    def has_path(self, path, document):
        """Whether a file or folder has this path: from the top, from the document's folder, or as its end."""
        bare = path.rstrip("/")
        if not IS_MADE.isdisjoint(bare.split("/")):
            return True
        wanted = PLACEHOLDER.sub("*", bare)
        if "*" not in wanted:
            beside = str(pathlib.PurePath(document).parent / wanted)
            return any(place in self.places for place in (wanted, beside)) or any(
                place.endswith("/" + wanted) for place in self.places)
        return any(fnmatch.fnmatchcase("/" + place, "*/" + wanted) for place in self.places)


def paths_in(quoted):
    """What stands for a file or folder in a text in back quotes, and the rest of the text. Rattle.a.b
    is a module."""
    found, rest = [], []
    for word in quoted.split():
        bare = word.strip("'\",;:()").partition(":")[0]
        has_slash = re.fullmatch(r"[\w.*{}<>-]+(/[\w.*{},<>-]*)+", bare)
        is_path = has_slash or (NAMES_FILE.fullmatch(bare) and not bare.startswith("Rattle."))
        (found if is_path else rest).append(bare if is_path else word)
    return found, " ".join(rest)


def faults_of_quoted(repository, document, quoted):
    """What is wrong with a text in back quotes."""
    if COMMIT.fullmatch(quoted):
        return [] if repository.has_commit(quoted) else [f"no commit before this one: {quoted}"]
    paths, rest = paths_in(quoted)
    faults = [f"no file or folder: {path}" for path in paths if not repository.has_path(path, document)]
    faults += [f"no such word: {word}" for word in STARRED.findall(rest) if not repository.has_word(word)]
    for crate, path in re.findall(r"\b(\w+)::([\w:]+)", rest):
        has = repository.of_crate.get(crate)
        faults += [f"not in {crate}: {word}" for word in WORD.findall(path) if has is not None
                   and word not in has]
    return faults


def anchor(heading):
    """The name by which a link finds a heading."""
    return re.sub(r"[^\w\- ]", "", heading.lower()).replace(" ", "-")


def faults_of_link(repository, document, target):
    """What is wrong with the target of a link."""
    path, _, heading = target.partition("#")
    if ":" in path:
        return []
    file = (repository.root / document).parent / path if path else repository.root / document
    if not file.exists():
        return [f"a link to nothing: {target}"]
    if heading and heading not in map(anchor, HEADING.findall(file.read_text())):
        return [f"a link to no heading: {target}"]
    return []


def length_of(repository, path):
    """How many lines the file has whose path ends so, or None where no file has or several have this end."""
    found = [place for place in repository.paths if ("/" + place).endswith("/" + path)]
    return (repository.root / found[0]).read_bytes().count(b"\n") if len(found) == 1 else None


def faults_of_counts(repository, text):
    """The numbers of lines, beside a file's name, in a table and above it, that aren't those of the files."""
    faults = []
    for path, count in ROW.findall(text) + COUNTED.findall(text):
        if length_of(repository, path) != number(count):
            faults.append(f"{path} has {length_of(repository, path)} lines, not {count}")
    for files, lines, table in SUM.findall(text):
        rows = ROW.findall(table)
        if (len(rows), sum(number(count) for _, count in rows)) != (number(files), number(lines)):
            faults.append(f"{files} files, {lines} lines: the rows below are others")
    return faults


def sentences(text):
    """The sentences of a text, each as its words, without its blocks of code."""
    parts = PART.split(BLOCK.sub("\n\n", text))
    return [re.findall(r"\S*\w\S*", sentence) for part in parts for sentence in SENTENCE_END.split(part)]


def paragraphs(text):
    """The paragraphs and items of a text, each as its words."""
    lines = ("" if line.startswith(("|", "#")) else line for line in BLOCK.sub("\n\n", text).splitlines())
    return [part.split() for part in re.split(r"\n\s*\n|\n(?= *(?:[-*]|\d+\.) )", "\n".join(lines))]


def is_counted(document):
    """Whether a document is in docs or a README."""
    return document.startswith("docs/") or pathlib.PurePath(document).name == "README.md"


def faults_of_length(document, text):
    """Where a paragraph is longer than it may be, or a document or a sentence in it than LENGTHS allows."""
    long = [it for it in paragraphs(text) if len(it) > MOST_OF_PARAGRAPH] if is_counted(document) else []
    return ([f"a paragraph of {len(it)} words: {' '.join(it[:12])} .." for it in long]
            + faults_of_sentences(document, text))


def faults_of_sentences(document, text):
    """Where a document or a sentence in it is longer than LENGTHS allows."""
    if document not in LENGTHS:
        return []
    lines, words = LENGTHS[document]
    faults = [f"more than {lines} lines"] if text.count("\n") > lines else []
    return faults + [f"a sentence of {len(found)} words: {' '.join(found)}"
                     for found in sentences(text) if len(found) > words]


def faults_of(repository, document):
    """What is wrong with a document."""
    text = (repository.root / document).read_text()
    plain = BLOCK.sub("\n", text)
    faults = [fault for _, quoted in QUOTED.findall(plain)
              for fault in faults_of_quoted(repository, document, quoted)]
    faults += [fault for target in LINK.findall(plain)
               for fault in faults_of_link(repository, document, target)]
    tops = "|".join(sorted({re.escape(path.split("/")[0]) for path in repository.paths if "/" in path}))
    for path in re.findall(rf"(?<![\w./-])(?:{tops})/[\w.*{{}}<>/-]+", QUOTED.sub("", text)):
        if not repository.has_path(path.rstrip("."), document):
            faults.append(f"no file or folder: {path}")
    faults += faults_of_counts(repository, text) + faults_of_length(document, text)
    return sorted(set(faults))


# Texts in which a fault has to be found, and texts in which none is, in a repository of the files below.
FILES = {"crates/one/src/read.rt": "fn read_all() {}\n\n", "crates/two/src/list.rt": "fn list_all() {}\n",
         "docs/A.md": "# The first one\n"}
PLANTED = (
    "`read_some`", "`read_some*`", "`one::list_all`", "`src/write.rt`", "`write.rt`", "see crates/three/src",
    "`docs/B.md`",
    "`docs/OTHER.md`", "[one](docs/B.md)", "[a](docs/A.md#second)", "`abcdef1`", "`src/read.rt` (3 lines)",
    "| `one/src/read.rt` | 1 |", "1 files, 3 lines:\n\n| `one/src/read.rt` | 2 |\n", "    crates/three/src\n",
    "    read_some\n\n`read_some`", "```\nread_some\n```\n\n`read_some`",
    "a.\n" * 111, "One.\n- " + "word " * 25 + "end. More.", "| `read_all` | " + "word, " * 26 + "|",
    "One.\n\n" + "Two words. " * 40 + "\nThree.\n", "1. " + "Two words. " * 40,
)
RIGHT = (
    "`read_all`", "`read_a*`", "`*_all`", "`one::read_all`", "`src/read.rt`", "`crates/NAME/src/*.rt`",
    "[one](docs/A.md#the-first-one)", "`1234567`", "`src/read.rt` (2 lines)", "[x](https://x.y/z)",
    "1 files, 2 lines:\n\n| `one/src/read.rt` | 2 |\n", "    read_some crates/two/src\n",
    "```\nread_some\n```\n",
    "One.\n\n" + "Two words. " * 40 + "\n\n- Three.\n- Four.\n", "| " + "Two words. " * 50 + " |\n",
    "a. a\n\n" * 54, "One.\n- " + "word " * 24 + "end. More.",
    "| " + "word " * 20 + "| " + "word " * 20 + "|", "    " + "word " * 40 + "\n",
)


def failed_tests():
    """The planted texts that are passed over, and the right ones that aren't."""
    with tempfile.TemporaryDirectory() as room:
        root = pathlib.Path(room)
        for path, text in FILES.items():
            (root / path).parent.mkdir(parents=True, exist_ok=True)
            (root / path).write_text(text)
        repository = Repository(root, sorted(FILES), lambda name: name == "1234567")
        if (faults_of_trusted("one: itoa\n", "### Trusted\n`itoa`\n")
            or not faults_of_trusted("one: itoa\n", "`itoa`\n### Trusted\n\n## B\n`itoa`")):
            yield "the list of crates"
        for text in PLANTED + RIGHT:
            (root / "README.md").write_text(text + "\n")
            if bool(faults_of(repository, "README.md")) != (text in PLANTED):
                yield text


def git(*words):
    return subprocess.run(["git", "-C", ROOT, *words], capture_output=True, text=True)


def is_commit(name):
    """Whether a commit before the present one has this name. A clone without history has no answer."""
    is_shallow = git("rev-parse", "--is-shallow-repository").stdout == "true\n"
    return is_shallow or git("merge-base", "--is-ancestor", name, "HEAD").returncode == 0


def faults_of_all(repository):
    """Where the documents are longer together than they may be."""
    count = sum(len((repository.root / document).read_text().split())
                for document in repository.documents if is_counted(document))
    return [f"{count:,} words, more than {MOST_OF_ALL:,}"] if count > MOST_OF_ALL else []


def faults_of_trusted(crates, text):
    """The kit's crates that crates.txt has, and the list of what is trusted hasn't."""
    lines = [line.partition(":") for line in crates.splitlines()]
    own = {name.split()[0] for name, _, _ in lines if name.split()}
    section = text.partition("### Trusted\n")[2].partition("\n#")[0]
    return [f"not among what is trusted: {name}" for name in sorted(
        {word for _, _, used in lines for word in used.split()} - own) if f"`{name}`" not in section]


def main():
    listed = git("ls-files", "-z", "--cached", "--others", "--exclude-standard").stdout.split("\0")
    repository = Repository(ROOT, [path for path in listed if path and (ROOT / path).is_file()], is_commit)
    wrong = {text: ["the test of this script"] for text in failed_tests()}
    wrong["docs/*.md and READMEs together"] = faults_of_all(repository)
    wrong.update((document, faults_of(repository, document)) for document in repository.documents)
    wrong["crates.txt"] = faults_of_trusted((ROOT / "crates.txt").read_text(),
                                            (ROOT / "docs/GUARANTEES.md").read_text())
    for name, faults in wrong.items():
        for fault in faults:
            print(f"{name}: {fault}")
    failed = sum(bool(faults) for faults in wrong.values())
    print(f"{len(PLANTED) + len(RIGHT) + 2 + len(repository.documents) - failed} passed, {failed} failed")
    return 1 if failed or not repository.documents else 0


if __name__ == "__main__":
    sys.exit(main())
