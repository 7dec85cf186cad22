"""Programs that write to a terminal."""

import contextlib
import os
import pty
import subprocess

from tests.support.harness import patience


def run_on_terminal(words, is_for_both=False, env=None):
    """Runs a program whose error output is a terminal, and also its output if that is for both. Returns the status, what the
    output got otherwise, and what the terminal got, which is read at the end, so it has to be short."""
    main, other = pty.openpty()
    with open(main, "rb", 0) as terminal:
        try:
            out = other if is_for_both else subprocess.PIPE
            streams = {"stdin": subprocess.DEVNULL, "stdout": out, "stderr": other}
            done = subprocess.run(words, **streams, env={**os.environ, **(env or {})}, timeout=patience(60))
        finally:
            os.close(other)
        told = b""
        # a terminal that nobody writes to any more ends with an error
        with contextlib.suppress(OSError):
            while piece := terminal.read(4096):
                told += piece
    return done.returncode, done.stdout or b"", told
