"""Tests that the crates' files of code, definitions and proofs have the toolchain's layout. `rt ci` refuses a crate whose files
haven't, but only when it comes to that crate, and `rt check` doesn't look at proof files."""

import glob
import os
import subprocess
import sys

from tests.gate.functions import toolchain
from tests.support.harness import ROOT, ensure, run_tests


def sources():
    """Returns the crates' files of code, definitions and proofs, without what was built."""
    found = [it for kind in ("rt", "antt") for it in glob.glob(f"crates/*/**/*.{kind}", root_dir=ROOT, recursive=True)]
    return sorted(it for it in found if it.split(os.sep)[2] != "out")


class Tests:
    def test_layout(self):
        files = sources()
        ensure(files, "the crates have no files")
        command = [toolchain().rtlib.RATTLE, "fmt", "--check", *files]
        told = subprocess.run(command, cwd=ROOT, stdout=subprocess.PIPE, stderr=subprocess.STDOUT, text=True)
        ensure(told.returncode == 0, f"not in the layout that 'rattle fmt --write FILE' gives:\n{told.stdout}")


if __name__ == "__main__":
    sys.exit(run_tests(Tests()))
