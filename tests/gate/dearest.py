"""Lists the functions that cost their crates' checks most, by what the last check of each crate has kept in its out/.

usage: python3 -m tests.gate.dearest [--most N] [--by-proof] [CRATE ..]

For each function it prints the kilobytes of all that was checked of it, and those of the translation of its body. The time
of a check grows with these sizes, and they don't depend on what else the machine did meanwhile. Behind them are the seconds that
it took, and those that went into the search for its proof, which an answer that names a tactic or a lemma saves. They are right
where the crate was last checked from nothing, with one job: a part took as long as no other file was written before its own.
--by-proof sorts by the last column."""

import glob
import os
import re
import sys

from tests.support.harness import ROOT

# A checked module of a function: Rattle-CRATE-proofs.FUNCTION.PART.oantt
MODULE = re.compile(r"Rattle-(\w+)-proofs\.(.+?)\.((?:Lts|Code)(?:\.\w+)?|\w+)\.oantt")


def sizes_of(crate):
    """Returns of each function the size of what was checked of it and of the translation of its body, and the seconds that it
    took, in all and for its proof."""
    found = {}
    kept = glob.glob(os.path.join(ROOT, "crates", crate, "out", "incremental", "*"))
    folder = max((it for it in kept if os.path.isdir(it) and not it.endswith("-offers")), key=os.path.getmtime, default=None)
    names = sorted((os.stat(os.path.join(folder, it)).st_mtime, it) for it in os.listdir(folder)) if folder else []
    for (before, _), (time, name) in zip(names, names[1:]):
        module = MODULE.fullmatch(name)
        if module:
            size, seconds = os.path.getsize(os.path.join(folder, name)) / 1000, time - before
            parts = size, size * (module[3] == "Lts"), seconds, seconds * (module[3] == "Proof")
            found[module[2]] = [one + more for one, more in zip(found.get(module[2], (0, 0, 0, 0)), parts)]
    return {f"{crate} {function}": sizes for function, sizes in found.items()}


def main(words):
    most = 30
    if words[:1] == ["--most"]:
        most, words = int(words[1]), words[2:]
    column = 3 if words[:1] == ["--by-proof"] else 0
    words = words[1:] if column else words
    found = {}
    for crate in words or sorted(os.listdir(os.path.join(ROOT, "crates"))):
        found.update(sizes_of(crate))
    print(f"{'kilobytes':>9} {'of body':>9} {'seconds':>9} {'of proof':>9}  crate and function")
    for function, (whole, body, seconds, proof) in sorted(found.items(), key=lambda it: -it[1][column])[:most]:
        print(f"{whole:9.0f} {body:9.0f} {seconds:9.1f} {proof:9.1f}  {function}")


if __name__ == "__main__":
    main(sys.argv[1:])
