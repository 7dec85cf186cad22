"""Builds the program `rehearse`, which only tests use and which nothing proves.

    python3 -m tests.rehearse.build FOLDER

tools/tried builds it, in a temporary repository that has this one's crates and one more. The program is then in FOLDER, where
those that tools/tried has built of this repository are. If nothing that it is built from has changed, it stays."""

import os
import pathlib
import shutil
import subprocess
import sys
import tempfile

from tests.support.harness import ROOT
from tools.crates import LIST, folder_of, rows

HERE = pathlib.Path(__file__).parent
# The toolchain's gate wants each .rt file in a crate that it proves, so the files here have one more suffix.
SUFFIX = ".tried"


def write_repository(root):
    """Makes the temporary repository: copies of this one's crates and scripts, with the crate `rehearse`."""
    for crate in rows():
        shutil.copytree(folder_of(crate), root / "crates" / crate, ignore=shutil.ignore_patterns("out"))
    shutil.copytree(os.path.join(ROOT, "tools"), root / "tools")
    (root / "crates.txt").write_text(pathlib.Path(LIST).read_text() + (HERE / "crate.txt").read_text())
    (root / "crates/rehearse/src").mkdir(parents=True)
    for file in HERE.glob(f"src/*{SUFFIX}"):
        shutil.copyfile(file, root / "crates/rehearse/src" / file.name.removesuffix(SUFFIX))


def main(folder):
    with tempfile.TemporaryDirectory(prefix="rehearse-") as root:
        write_repository(pathlib.Path(root))
        failed = subprocess.run([f"{root}/tools/tried", os.path.abspath(folder), "rehearse"]).returncode != 0
    print(f"{1 - failed} passed, {failed:d} failed")
    return int(failed)


if __name__ == "__main__":
    sys.exit(main(sys.argv[1]))
