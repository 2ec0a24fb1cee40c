"""The recorder serves no stranger: neither who starts a program that has rights of its own, nor who has
prepared a folder. And it destroys no file that isn't its own."""

import contextlib
import io
import os
import sys
import unittest
import unittest.mock

import recorder

sys.path.append(str(recorder.PYTHON))
from shb_record import results

NOBODY = 65534
AS_ROOT = unittest.skipUnless(os.geteuid() == 0, "only root can try it")
LIST = "made-by-shb-record.txt"


class Strangers(recorder.Case):
    def program(self, name):
        out = self.folder / name.split(".")[0]
        recorder.build(recorder.PROGRAMS / name, "-O1", out)
        return out

    def record(self, *words):
        ran = recorder.call(recorder.COMMAND, *words, cwd=self.folder,
                            env={**os.environ, "SHB": str(recorder.SHB)})
        return ran.returncode, ran.stderr.decode()

    @AS_ROOT
    def test_a_program_with_rights_of_its_own(self):
        program, kept, new = self.program("rights.c"), self.folder / "kept.rec", self.folder / "new.rec"
        self.folder.chmod(0o755)
        program.chmod(0o4755)
        kept.touch(0o600)

        def become_nobody():
            os.setgroups([])
            os.setgid(NOBODY)
            os.setuid(NOBODY)

        for record in kept, new:
            asked = {**recorder.settings(record), "SHB_PRELOAD": "/module/of/a/stranger.so"}
            ran = recorder.must(recorder.call(program, env=asked, preexec_fn=become_nobody))
            handed = {line.partition(b"=")[0] for line in ran.stdout.splitlines()}
            self.assertIn(b"SHB_SEED", handed)      # it ran, and had what the stranger set
            self.assertEqual((handed & {b"LD_PRELOAD", b"SHB_PRELOAD", b"SHB_RECORD"}, ran.stderr),
                             (set(), b""))
        self.assertEqual((kept.read_bytes(), new.exists()), (b"", False))

    def test_a_file_that_is_no_record(self):
        program, record, turns = (self.program("short_threads.c"), self.folder / "notes.rec",
                                  self.folder / "notes.turns")
        notes = b"shb-notes of mine\n"
        record.write_bytes(notes)
        ran = recorder.must(recorder.call(program, env=recorder.settings(record)))
        self.assertEqual(ran.stderr.decode(), f"shb recorder: {record} is no record, and isn't replaced by "
                                              "one; the program runs unrecorded\n")
        self.assertEqual((record.read_bytes(), turns.exists()), (notes, False))
        record.write_bytes(b"")
        turns.write_bytes(notes)
        for _ in range(2):  # an empty file, and an earlier record
            ran = recorder.must(recorder.call(program, env=recorder.settings(record)))
            self.assertEqual((ran.stderr, turns.read_bytes()), (b"", notes))
            recorder.must(recorder.convert(record))

    def test_a_list_of_results_that_is_a_link(self):
        folder, elsewhere = self.folder / "results", self.folder / "elsewhere"
        folder.mkdir()
        (folder / LIST).symlink_to(elsewhere)
        status, said = self.record("-o", folder, self.program("short_threads.c"))
        self.assertEqual((status, elsewhere.exists()), (125, False), said)
        self.assertRegex(said, rf"\Ashb-record: the results can't be put into {folder}: .*; name another "
                               r"folder with -o\n\Z")

    @AS_ROOT
    def test_a_folder_of_another_user(self):
        folder = self.folder / "results"
        folder.mkdir()
        os.chown(folder, NOBODY, NOBODY)
        (self.folder / "link").symlink_to(self.folder)
        os.chown(self.folder / "link", NOBODY, NOBODY, follow_symlinks=False)
        for name in "results", "link":
            status, said = self.record("-o", self.folder / name, self.program("short_threads.c"))
            self.assertEqual((status, (self.folder / name / LIST).exists()), (125, False), said)
            self.assertIn(f"{self.folder / name} belongs to another user, who can change what is in it", said)

    def test_a_folder_of_another_user_is_mentioned(self):
        said = io.StringIO()
        with unittest.mock.patch("os.geteuid", lambda: os.getuid() + 1), contextlib.redirect_stderr(said):
            results.look_at_owner(self.folder)
        self.assertEqual(said.getvalue(), f"shb-record: {self.folder} belongs to another user, who can "
                                          "change the results\n")
