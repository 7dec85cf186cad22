"""Checks that a line from a cutter cannot be kept beyond the next piece: it is borrowed from the piece or from the cutter, so
a crate that keeps one has to be refused, and one that is done with it has to pass.

    python3 -m tests.gate.borrows

It needs the toolchain, and no proof: the compiler decides, over the sources of nut_words."""

import os
import shutil
import subprocess
import sys
import tempfile

from tests.gate.functions import toolchain
from tests.support.harness import ROOT, ensure, expect, run_tests

CRATES = os.path.join(ROOT, "crates")
CODE = """//! Feeds a piece, and then another.
#![tactic(auto)]

use nut_words::{Line, LineCutter};

/// Whether the first line comes with the first piece.
pub fn feeds_twice(cutter: &mut LineCutter, piece: &[u8]) -> bool {
    %s
}
"""
DONE_WITH = "let came = cutter.feed(piece).0.is_some();\n    cutter.feed(piece);\n    came"
KEPT = "let (line, _used) = cutter.feed(piece);\n    cutter.feed(piece);\n    matches!(line, Some(Line::Text(_)))"


class Tests:
    def __init__(self, folder):
        # a copy, since all crates have to be in one folder
        words = os.path.join(folder, "crates", "nut_words")
        shutil.copytree(os.path.join(CRATES, "nut_words"), words, ignore=shutil.ignore_patterns("out"))
        with open(os.path.join(folder, "crates.txt"), "w") as file:
            file.write("nut_words: memchr arrayvec thiserror\nkeeps: nut_words\n")
        self.code = os.path.join(folder, "crates", "keeps", "src", "lib.rt")
        os.makedirs(os.path.dirname(self.code))
        self.write(DONE_WITH)
        _, self.crate = toolchain().rtlib.crates_below(folder)

    def write(self, body):
        with open(self.code, "w") as file:
            file.write(CODE % body)

    def compile(self, body):
        """Compiles a crate with this body, without a proof. Returns the status and the output."""
        self.write(body)
        words = self.crate.words(["--jobs", "1", "--only", ""], as_source=True)
        command = [*toolchain().rtlib.guarded(), toolchain().rtlib.RATTLE, "check", *words]
        done = subprocess.run(command, cwd=self.crate.folder, stdout=subprocess.PIPE, stderr=subprocess.STDOUT, timeout=600)
        return done.returncode, done.stdout.decode()

    def test_a_line_that_is_done_with(self):
        status, said = self.compile(DONE_WITH)
        expect(status, 0, said)

    def test_a_line_that_is_kept(self):
        status, said = self.compile(KEPT)
        ensure(status != 0 and "borrow-e0499" in said, said)


def main():
    with tempfile.TemporaryDirectory() as folder:
        return run_tests(Tests(folder))


if __name__ == "__main__":
    sys.exit(main())
