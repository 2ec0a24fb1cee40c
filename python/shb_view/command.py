"""The words of the command, its files and its statuses."""

import os
import re
import sys

from shb_common.commands import Parser
from shb_common.files import put, temporary_file
from shb_common.parts import ANALYSER
from shb_common.report import BadReport
from shb_common.result import in_bytes
from shb_common.stacks import BadStacks
from shb_common.standard import Progress, faults_of, open_standard_files, tell, words_of, write_texts
from shb_common.words import Refused
from shb_view import result, text
from shb_view.names import readable
from shb_view.page import page_parts
from shb_view.view import Asked, make_view, view_of_run

ABOUT = """\
Explains the races of a trace: runs `shb` for them, and shows for each group of lines
that share a variable which lines use it, in which threads and under which locks."""
STATUS = """\
Exit status: 0 shown; 2 nothing could be shown: the trace is refused, `shb` failed, or a file
can't be read or written; 3 wrong command line; 4 the file of --stacks is damaged.
SHB=PROGRAM names another `shb`.

A place is a pair of locations that race, that of the first access and that of the second."""
OPTIONS = """\
--html PAGE: write a page to this file, not text to standard output
--text: beside the page, write the text too
--title TEXT: the title, if it isn't to be the trace's name
--source DIR: show lines of the source files below this folder; may be given again
--all: in the text, add a race of each group and what comes before it
--json FILE: write the places to this file, for programs (docs/FORMATS.md has the form)
--stacks FILE: show call stacks and names of locals, as `shb-std --stacks` wrote them
--recorded-source: show lines of the source files that the file of --stacks names
--shb PROGRAM: the `shb` to run
TRACE: a trace, as `shb` reads it
"""
COLOUR = "\x1b\\[[0-9]+m"  # names have no escape sign of their own


def arguments(words, program):
    parser = Parser("shb-view", ABOUT, STATUS, usage="shb-view [OPTION].. TRACE")
    parser.add(OPTIONS, source={"action": "append", "default": []},
               shb={"default": os.environ.get("SHB") or program})
    return parser.parsed(words)


def show(options, out, progress):
    """Makes the view of a trace and writes what was asked for, the text to `out` if there is one.
    Returns the view."""
    wants_text = options.text or not (options.html or options.json)
    if wants_text and not out:
        raise Refused("standard output is closed")
    makers = {options.html: page_of, options.json: lambda view: in_bytes(result.document(view))}
    files = [path for path in makers if path]
    for path in files:
        try_target(path, options.trace)
    asked = Asked(options.shb, bool(options.html or options.all), options.source, options.recorded_source,
                  options.title)
    view = make_view(options.trace, options.stacks, asked, progress)
    for path in files:
        put(path, makers[path](view))
    if wants_text:
        write_text(view, out, progress, options.all)
    return view


def show_run(run, asked, page, out, progress):
    """Makes the view of a recorded run, and writes its page and its text. Returns the view."""
    try_target(page, run.trace)
    view = view_of_run(run, asked, progress)
    put(page, page_of(view))
    write_text(view, out, progress)
    return view


def page_of(view):
    return "".join(page_parts(view)).encode()


def write_text(view, out, progress, is_whole=False):
    progress.clear()
    is_coloured = out.isatty() and not os.environ.get("NO_COLOR") and os.environ.get("TERM") != "dumb"
    lines = text.text_lines(view, is_whole)
    write_texts((f"{line if is_coloured else re.sub(COLOUR, '', line)}\n" for line in lines), out)


def try_target(path, trace):
    """Refuses a file to be written that is the trace, no file, or in a folder that takes none."""
    if os.path.exists(path) and os.path.exists(trace) and os.path.samefile(path, trace):
        raise Refused(f"the page would take the place of {readable(trace)}")
    if os.path.exists(path) and not os.path.isfile(path):
        raise Refused(f"{readable(path)} isn't a regular file")
    with faults_of(path), temporary_file(os.path.dirname(os.path.abspath(path))):
        pass


def explain(make, *words):
    """The status, and the view that is made of these words; None if it can't be, which is said."""
    progress = Progress("shb-view", sys.stderr)
    try:
        return 0, make(*words, progress)
    except BrokenPipeError:
        return 2, None
    except BadStacks as fault:
        status, said = 4, str(fault)
    except (Refused, BadReport, OSError) as fault:
        status, said = 2, words_of(fault)
    except MemoryError:
        status, said = 2, "out of memory"
    except Exception:
        import traceback  # takes its time, and this is for a fault of the view alone
        status, said = 2, traceback.format_exc().rstrip()
    finally:
        progress.clear()
    tell(f"shb-view: {said}")
    return status, None


def main(words, program=ANALYSER):
    is_open = open_standard_files()
    return explain(show, arguments(words, program), sys.stdout if is_open else None)[0]
