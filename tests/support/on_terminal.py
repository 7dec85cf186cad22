"""Runs a command in the background of a terminal of its own, and ends with its status.

usage: on_terminal.py COMMAND [WORD ..]"""

import os
import pty
import subprocess
import sys


def main(words):
    out, err = os.dup(1), os.dup(2)
    child, _ = pty.fork()
    if child == 0:
        run = subprocess.Popen(words, stdin=subprocess.DEVNULL, stdout=out, stderr=err, preexec_fn=os.setpgrp)
        os._exit(run.wait())
    sys.exit(os.waitstatus_to_exitcode(os.waitpid(child, 0)[1]))


if __name__ == "__main__":
    main(sys.argv[1:])
