"""Pieces of HTML. What isn't Markup is escaped when it is put into one."""

from shb_common.words import in_html

VOID = {"br", "meta"}  # elements without an end


class Markup(str):
    """A piece of HTML."""


def escaped(part):
    return part if isinstance(part, Markup) else Markup(in_html(str(part)))


def joined(parts, between=""):
    return Markup(between.join(map(escaped, parts)))


def element(tag, /, *parts, **attributes):
    """An element. An attribute's name may end with `_`, and `_` inside stands for `-`."""
    given = "".join(f' {word.rstrip("_").replace("_", "-")}="{escaped(value)}"'
                    for word, value in attributes.items())
    return Markup(f"<{tag}{given}>" + f"{joined(parts)}</{tag}>" * (tag not in VOID))


def with_commands(text):
    """Words of our own, with what stands between backticks as code."""
    return joined(element("code", part) if number % 2 else part
                  for number, part in enumerate(text.split("`")))


def head(title, style, styles="'unsafe-inline'", scripts="'none'"):
    """The head of a page, with what the browser may run and load, whatever a name says."""
    allowed = (f"default-src 'none'; base-uri 'none'; form-action 'none'; style-src {styles}; "
               f"script-src {scripts}")
    parts = [element("meta", charset="utf-8"),
             element("meta", http_equiv="Content-Security-Policy", content=allowed),
             element("meta", name="viewport", content="width=device-width, initial-scale=1"),
             element("title", title), element("style", Markup(style))]
    return '<!doctype html>\n<html lang="en">\n' + element("head", joined(parts, "\n")) + "\n<body>\n"
