"""Parts of code between brackets, for the steps that read the sources of the crates."""

CLOSES = {"(": ")", "[": "]", "{": "}"}


def end_of(text, start):
    """The place after the bracket that closes the one at `start`; the end of the text, where none does."""
    open_ones = []
    for at in range(start, len(text)):
        if text[at] in CLOSES:
            open_ones.append(CLOSES[text[at]])
        elif open_ones and text[at] == open_ones[-1]:
            open_ones.pop()
            if not open_ones:
                return at + 1
    return len(text)


def end_of_parameters(text, at):
    """The place after the type parameters that begin at `at`; `at`, where none do."""
    if text[at : at + 1] != "<":
        return at
    depth = 0
    for at in range(at, len(text)):
        depth += (text[at] == "<") - (text[at] == ">" and text[at - 1] not in "-=")
        if depth == 0:
            return at + 1
    return len(text)


def parts(text, sign, of_types=False):
    """The parts of a text between signs that stand outside of brackets, in types outside of those
    of parameters too."""
    out, begin, at = [], 0, 0
    while at < len(text):
        if text[at] in CLOSES:
            at = end_of(text, at)
        elif of_types and text[at] == "<":
            at = end_of_parameters(text, at)
        elif text.startswith(sign, at):
            out.append(text[begin:at])
            at = begin = at + len(sign)
        else:
            at += 1
    return [it.strip() for it in [*out, text[begin:]] if it.strip()]
