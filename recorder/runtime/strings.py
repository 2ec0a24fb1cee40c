#!/usr/bin/env python3
"""Prints a line `STRING(VERSION, NAME, BEFORE, AFTER)` for each function of the C++ library that reads or
changes a std::string: what containers.c notes before it and after it. Nothing is printed where there is no
such library.

    strings.py LIBSTDCXX
"""

import pathlib
import re
import subprocess
import sys

STRING = "std::__cxx11::basic_string<char, std::char_traits<char>, std::allocator<char> >"
ITERATOR = re.compile(r"__gnu_cxx::__normal_iterator<(char const\*|char\*), S >")
MEMBER = re.compile(r"(?:void )?S::(?:operator)?(\w+|~\w+|[^\w ]+| std.*>)(?:<.*>)?(\(.*\))(?: const)?")
STREAM = re.compile(r".*& (std::\w+|std::operator..) ?<char,[^&]*>\(std::[^&]*&, ((?:S&.*|S const&|char "
                    r"const\*, long)\))")
# The arguments are a, b, .. f. What parameters read, and how many arguments they are: the first that fits.
PARAMETERS = [(re.compile(pattern), text, words) for pattern, text, words in (
    (r"S const&, unsigned long, unsigned long", "reads_part(&its, {0}.s, {1}.n, {2}.n);", 3),
    (r"S const&, unsigned long", "reads_part(&its, {0}.s, {1}.n, ALL);", 2),
    (r"S const&", "reads_part(&its, {0}.s, 0, ALL);", 1),
    (r"S&&?", "moves(&its, {0}.s);", 1),
    (r"char( const)?\*, char( const)?\*", "reads_text(&its, {0}.text, {1}.text - {0}.text);", 2),
    (r"char const\*, (unsigned )?long|std::initializer_list<char>", "reads_text(&its, {0}.text, {1}.n);", 2),
    (r"char const\*", "reads_text(&its, {0}.text, text({0}.text));", 1),
    (r"S::__sv_wrapper", "reads_text(&its, {1}.text, {0}.n);", 2),
    (r"unsigned long(, char)?", "its.added += {0}.n;", 2),
    (r"char", "its.added++;", 1),
    (r"[^,]+", "", 1))]
SEARCHES = [(f"{names}\\({parameters}", 9, before, f"found(&its, a.s, {ends});")
            for names, ends in (("(rfind|find_last.*)", "(uint64_t)r + 1 ? r : 0, c.n"), ("find.*", "c.n, r"))
            for parameters, before in ((r"char const\*, unsigned long\)", "reads_text(&its, b.text, "
                                        "text(b.text));"),
                                       (r"char const\*, .*", "reads_text(&its, b.text, d.n);"),
                                       (r"S .*", "reads_part(&its, b.s, 0, ALL);"),
                                       (r"char, .*", "its.added++;"))]
CHANGES = "will_change(&its, a.s);"
# Of each call: how many of its first parameters read nothing; what is noted before it, with what the others
# read; after it.
CALLS = [(re.compile(pattern), *said) for pattern, *said in (
    (r"(_M_)?get_allocator.*|max_size.*|_M_local_data.*|_M_create.*|_Alloc_hider.*|__sv_wrapper.*"
     r"|_S_compare.*|_S_to.*", 9, "", ""),
    (r"std::(getline|operator>>).*", 9, "", "made(&its, b.s);"),
    (r"std::.*", 0, "", ""),
    (r"_S_copy_chars.*", 9, "reads_text(&its, b.text, c.n - b.n);writes(&its, a.text, c.n - b.n);", ""),
    (r"_S_assign.*", 9, "writes(&its, a.text, b.n);", ""),
    (r"_S_.*", 9, "reads_text(&its, b.text, c.n);writes(&its, a.text, c.n);", ""),
    (r"substr.*", 9, "reads_part(&its, b.s, c.n, d.n);", "made(&its, a.s);"),
    (r"copy.*", 9, "reads_part(&its, a.s, d.n, c.n);", "writes(&its, b.text, r);"),
    (r"compare\(unsigned.*", 2, "reads_part(&its, a.s, b.n, c.n);", ""),
    (r"compare.*", 0, "reads_part(&its, a.s, 0, its.added);", ""),
    *SEARCHES,
    (r"_M_set_length.*", 9, "writes_words(&its, a.s);", "writes(&its, a.s->characters + b.n, 1);"),
    (r"_M_(data|length|capacity)\(.+\)", 9, "writes_words(&its, a.s);", ""),
    (r"~basic_string.*|_M_dispose.*|_M_destroy.*", 9, "made(&its, a.s);", ""),
    (r"basic_string\(S&&.*", 0, "", "moves(&its, a.s);"),
    (r".*\(S&.*", 0, "moves(&its, a.s);", "moves(&its, a.s);"),
    (r"basic_string.*|_M_construct.*", 0, "", "made(&its, a.s);"),
    (r"(resize|reserve)\(u.*", 9, "grows(&its, a.s, b.n);" + CHANGES, "changed_end(&its, a.s);"),
    (r"reserve.*|shrink_to_fit.*", 9, "grows(&its, a.s, ALL);" + CHANGES, "changed_end(&its, a.s);"),
    (r"(append|\+=|push_back|pop_back|clear|_M_append)\(.*", 0, CHANGES, "changed_end(&its, a.s);"),
    (r"insert\(unsigned.*", 1, CHANGES, "changed(&its, a.s, b.n, 0);"),
    (r"insert.*", 1, CHANGES, "changed(&its, a.s, b.text - its.was.characters, 0);"),
    (r"(erase|_M_erase)\(unsigned.*", 2, CHANGES, "changed(&its, a.s, b.n, 0);"),
    (r"erase.*", 2, CHANGES, "changed(&its, a.s, b.text - its.was.characters, 0);"),
    (r"(replace|_M_replace.*|_M_mutate)\(unsigned.*", 2, CHANGES, "changed(&its, a.s, b.n, c.n);"),
    (r"replace.*", 2, CHANGES, "changed(&its, a.s, b.text - its.was.characters, c.n - b.n);"),
    (r"(assign|=|_M_assign)\(.*", 0, CHANGES, "changed(&its, a.s, 0, ALL);"),
    (r"c?r(begin|end).*", 9, "reads_words(&its, b.s);", ""),
    (r".*", 9, "reads_words(&its, a.s);", ""))]


def reads(parameters, arguments):
    """What is noted of parameters, whose arguments these are."""
    text = ""
    while parameters:
        found, noted, count = next((found, *said) for pattern, *said in PARAMETERS
                                   if (found := pattern.match(parameters)))
        text += noted.format(*arguments)
        parameters, arguments = parameters[found.end():].lstrip(", "), arguments[count:]
    return text


def main(library):
    if not pathlib.Path(library).is_absolute():
        return
    call = {"check": True, "stdout": subprocess.PIPE}
    exported = subprocess.run(["nm", "-D", "--defined-only", library], **call).stdout.decode()
    names = [line.split()[-1] for line in exported.splitlines()]
    plain = subprocess.run(["c++filt"], input="\n".join(names).encode(), **call).stdout.decode().splitlines()
    for name, shown in sorted(zip(names, plain)):
        shown = ITERATOR.sub(r"\1", shown.partition("@")[0].replace(STRING, "S"))
        found = MEMBER.fullmatch(shown) or STREAM.fullmatch(shown)
        if found:
            of, parameters = found[1], found[2].strip("()")
            skipped, before, after = next(said for pattern, *said in CALLS
                                          if pattern.fullmatch(f"{of}({parameters})"))
            before = reads(", ".join(parameters.split(", ")[skipped:]), "bcdef"[skipped:]) + before
            symbol, _, version = name.partition("@@")
            if before or after:
                print(f"STRING({version}, {symbol}, {before}, {after})")


if __name__ == "__main__":
    main(*sys.argv[1:])
