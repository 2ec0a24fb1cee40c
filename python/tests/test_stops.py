"""Helpers of a command, and the signals that end it."""

import pathlib
import subprocess
import sys
import unittest

PYTHON = pathlib.Path(__file__).resolve().parents[1]

# A command that was stopped, whose helper is sent the signal before its session is new.
COMMAND = """
import os, signal, subprocess, sys, time
from shb_common.children import apart
from shb_common.stops import Stops
Stops("stopped by {}".format).note(signal.SIGTERM, time.monotonic())
how = apart()
def begin():
    os.kill(os.getpid(), signal.SIGTERM)
    how["preexec_fn"]()
sys.exit(subprocess.call([sys.executable, "-c", "import os; print(os.getsid(0) == os.getpid())"],
                         preexec_fn=begin))
"""


class Helpers(unittest.TestCase):
    def test_a_signal_to_the_group_does_not_end_a_helper_that_begins(self):
        ran = subprocess.run([sys.executable, "-c", COMMAND], cwd=PYTHON, stdout=subprocess.PIPE,
                             stderr=subprocess.PIPE)
        self.assertEqual((ran.returncode, ran.stdout, ran.stderr), (0, b"True\n", b""))
