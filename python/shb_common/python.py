"""Which Python the commands need. An older one, or one without its whole library, can read this file and the
commands' own, and says so."""

import _signal  # `signal` takes its time
import gc
import importlib
import os
import sys

NEEDED = (3, 8)
COLLECT_EVERY = 100_000  # objects that are kept: Python's own 700 cost a short run a twentieth of its time


def run(command, status):
    """Runs a command. The status is this one if this Python is too old, or lacks a module of its library."""
    def end(why):
        sys.stderr.write("%s: %s\n" % (command, why))
        sys.exit(status)

    def told(kind, fault, trace):
        missing = getattr(fault, "name", None)
        if not issubclass(kind, ImportError) or not missing or missing.startswith("shb_"):
            return sys.__excepthook__(kind, fault, trace)
        end("this Python lacks its module `%s`: install all of Python (Debian's python3, not python3-minimal "
            "alone)" % missing)

    if sys.version_info < NEEDED:
        end("Python %d.%d or later is needed, and this is %d.%d" % (NEEDED + sys.version_info[:2]))
    sys.excepthook = told
    gc.set_threshold(COLLECT_EVERY)
    module = importlib.import_module(command.replace("-", "_") + ".command")
    is_stopped = _signal.getsignal(_signal.SIGINT) == _signal.SIG_DFL    # else it ignores Ctrl-C
    try:
        if is_stopped:
            _signal.signal(_signal.SIGINT, _signal.default_int_handler)
        status = module.main(sys.argv[1:])
    except KeyboardInterrupt:
        _signal.signal(_signal.SIGINT, _signal.SIG_DFL)
        os.kill(os.getpid(), _signal.SIGINT)
    try:
        if is_stopped:
            _signal.signal(_signal.SIGINT, _signal.SIG_DFL)
        sys.stdout.flush()
        sys.stderr.flush()
    except OSError:
        sys.exit(status)    # tells of it
    os._exit(status)    # what Python would free now takes a short run a tenth of its time
