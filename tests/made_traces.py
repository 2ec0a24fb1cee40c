"""Small traces made from random numbers: mostly disciplined ones, and broken ones among them."""

import shb

WORDS = [b"r", b"w", b"acq", b"rel", b"fork", b"join", b"begin", b"end"]
WEIGHTS = [6, 6, 5, 6, 2, 1, 1, 1]
ODD_NAMES = [b"x", b"f(a)", b" ", b"\x00\xff", b"x)(", "größe".encode(), b"0"]
BAD_LINES = [b"oops", b"|r(x)", b"T1|q(x)", b"T1|r()", b"T1|begin(", b"T1|r(x", b"\r\r", b"T1|w"]


def made_events(pick, is_crowd):
    """Events that keep the discipline, and in some traces one that doesn't."""
    names = pick.sample(ODD_NAMES, len(ODD_NAMES))
    threads = ([b"T%d" % k for k in range(1, 6)] if pick.random() < 0.7 else names)[: pick.randint(2, 5)]
    if is_crowd:
        threads = [b"T%d" % k for k in range(pick.randint(6, 70))]
    locks, variables = names[:2], names[2 : 2 + pick.randint(1, 3)]
    events, is_broken = [], pick.random() < 0.15
    for _ in range(pick.randint(20, 100) if is_crowd else pick.randint(0, 40)):
        thread, word = pick.choice(threads), pick.choices(WORDS, WEIGHTS)[0]
        of = {b"r": variables, b"w": variables, b"acq": locks, b"rel": locks}.get(word, threads)
        event = (thread, word, None if word in shb.MARKS else pick.choice(of))
        if shb.discipline_fault(events, event) is None or (is_broken and pick.random() < 0.1):
            events.append(event)
    return events


def made_line(pick, number, event):
    thread, word, name = event
    operand = pick.choice([b"", b"()", b"(m)"]) if name is None else b"(" + name + b")"
    location = pick.choice([b"", b"|%d" % number, b"|A.java:%d" % (number % 4), b"|a|b", b"|", b"| x\x80"])
    return thread + b"|" + word + operand + location


def made_trace(pick, is_crowd=False):
    """A trace of 2 to 5 threads, or of a crowd of 6 to 70."""
    lines = []
    for number, event in enumerate(made_events(pick, is_crowd)):
        lines.append(made_line(pick, number, event) + pick.choice([b"", b"", b"", b"\r"]))
        if pick.random() < 0.05:
            lines.append(pick.choice([b"", b"\r"]))
        if pick.random() < 0.005:
            lines.append(pick.choice(BAD_LINES))
    return b"\n".join(lines) + pick.choice([b"\n", b""])


def changed(pick, text):
    """A report or a trace with one small change: of a line, a number, a byte, or its end."""
    lines = text.split(b"\n")
    at = pick.randrange(len(lines))
    way = pick.randrange(6)
    if way == 0:
        del lines[at]
    elif way == 1:
        lines.insert(at, lines[pick.randrange(len(lines))])
    elif way == 2:
        return text[: pick.randrange(len(text))]
    elif way == 3:
        place = pick.randrange(len(text))
        return text[:place] + bytes([pick.choice(b"0123456789 :abT|\r\n")]) + text[place + 1 :]
    elif way == 4:
        words = lines[at].split(b" ")
        words[-1] = pick.choice([b"0", b"1", b"2", b"3", b"01", b"18446744073709551615",
                                 b"18446744073709551616", b""])
        lines[at] = b" ".join(words)
    else:
        other = pick.randrange(len(lines))
        lines[at], lines[other] = lines[other], lines[at]
    return b"\n".join(lines)
