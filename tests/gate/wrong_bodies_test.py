"""Tests wrong_bodies.py on crates of seven functions that are written here: a wrong body is refused, and wrong constants together,
each at its own goal; and a right body is reported, a body that its contract allows, an edit that only another function refuses,
one that nothing follows from, one that takes a kept answer or invariant away, and one of a function that isn't proved. Of two
more crates, one above the other, it tests which edits are known from earlier runs."""

import contextlib
import io
import os
import re
import sys
import tempfile

from tests.gate import wrong_bodies
from tests.gate.functions import toolchain
from tests.support.harness import read, write

CODE = read(os.path.join(os.path.dirname(__file__), "wrong_bodies_test.rt.txt"))

# The other files of a crate: an answer that cites a call by its name, and two that stand under the names of the branches, each
# of which looks into a definition; and an invariant under the name of its loop.
BESIDE = {
    "specs/Lib.antt": "pub mod Doubled\n",
    "specs/Doubled.antt": "use Rattle.std.specs.Prelude.{ℕ, ◌+◌}\n\nunfoldable pub doubled : ℕ → ℕ\ndoubled count = count + count\n",
    "proofs/as_second/Answers.antt": """use Rattle.NAME.proofs.as_second.Goals as goal

pub returns : goal.returns
returns c = c.second.ensures
""",
    "proofs/twice/Answers.antt": """use Rattle.std.proofs.Common.{arith, refl}
use Rattle.NAME.specs.Doubled.{doubled}
use Rattle.NAME.proofs.twice.Goals as goal

pub returns-then-count-gt-MOST : goal.returns-then-count-gt-MOST
unfolding doubled
returns-then-count-gt-MOST c = omega arith

pub returns : goal.returns
unfolding doubled
returns c = refl
""",
    "proofs/counted/Invariants.antt": """use Rattle.std.proofs.Common.{◌≡◌}
use Rattle.NAME.proofs.counted.Given as goal

abbrev pub invariant-loop-step : goal.invariant-loop-step
invariant-loop-step l = l.count ≡ l.step
""",
}

# The beginnings of the messages about an edit that its own function lets through, and about one whose refusal shows nothing.
LET_THROUGH = "not refused in its own function, of which the prover says: "
IN_DOUBT = "IN DOUBT: it takes away the goal of"

# Each edit's text, and how the message about it has to begin. Those of branches and loops keep the name under which an answer or an
# invariant stands, or rename it.
EDITS = {
    "wrong": ("    count + 1\nnew:     count + 2", "refused, as it must be: src/lib.rt"),
    "right": ("    next(next(count))\nnew:     1 + next(count)", f"{LET_THROUGH}second: "),
    "contract-too-weak": ("{ count } else { MOST }\nnew: { 0 } else { MOST }", f"{LET_THROUGH}few: "),
    "wrong-beside-its-callee": ("    second(count)\nnew:     second(count) + 1", "refused, as it must be: ./proofs/as_second_edited_"),
    "unreadable": ("    count + 1\nnew:     counted + 1", "BAD EDIT: the prover cannot read"),
    "name-gone": ("    second(count)\nnew:     count + 2", "BAD EDIT: refused only because its proof can't be read"),
    "constant": ("const MOST: usize = 8;\nnew: const MOST: usize = 9;\nrefused by: few", "refused, as it must be by few, in a round of its own"),
    "constant-of-another": ("const MOST: usize = 8;\nnew: const MOST: usize = 9;\nrefused by: next", f"{LET_THROUGH}next: "),
    "least": ("LEAST: usize = 2;\nnew: LEAST: usize = 3;\nrefused by: limits at returns-clause-least", "refused, as it must be by limits, at returns-clause-least"),
    "most": ("MOST: usize = 8;\nnew: MOST: usize = 7;\nrefused by: limits at returns-clause-most", "refused, as it must be by limits, at returns-clause-most"),
    "at-another-goal": ("MOST: usize = 8;\nnew: MOST: usize = 7;\nrefused by: limits at returns-clause-least", f"{LET_THROUGH}limits: "),
    "nowhere": ("const MOST: usize = 8;\nnew: const MOST: usize = 9;", "BAD EDIT: it edits no function"),
    "unproved": ("{ count } else { MOST }\nnew: { 9 } else { MOST }", "NOT TRIED: without any edit the prover says of few: "),
    "branch-kept": ("return 2 * count;\nnew: return 3 * count;", "refused, as it must be: ./proofs/twice_edited_"),
    "branch-renamed": ("if count > MOST {\nnew: if count > 8 {", f"{IN_DOUBT} returns-then-count-gt-MOST, "),
    "branch-renamed-and-wrong": (
        "if count > MOST {\nnew: if count > 8 {\nold: return 2 * count;\nnew: return 3 * count;",
        f"{IN_DOUBT} returns-then-count-gt-MOST, ",
    ),
    "branch-renamed-at-its-goal": (
        "if count > MOST {\nnew: if count > 8 {\nold: return 2 * count;\nnew: return 3 * count;\nrefused by: twice at returns-then-count-gt8",
        "refused, as it must be: src/lib.rt",
    ),
    "branch-renamed-and-wrong-behind": (
        "if count > MOST {\nnew: if count > 8 {\nold:     count + count\nnew:     count + count + 1",
        "refused, as it must be: ./proofs/twice",
    ),
    "branch-kept-at-its-goal": ("    count + count\nnew:     count + count + 1\nrefused by: twice at returns", "refused, as it must be: src/lib.rt"),
    "loop-kept": ("count += 1;\nnew: count += 2;", "refused, as it must be: src/lib.rt"),
    "loop-renamed": ("for step in\nnew: for turn in", f"{IN_DOUBT} invariant-loop-step, "),
    "twice": ("usize\nnew: u64", "BAD EDIT: an 'old:' text is in src/lib.rt"),
}

# The edits of each crate; how many are judged in its first check: in `places` one in its place and one in a copy; none of those
# that stand beside one that can't be read, and none where the function of the control isn't proved; and how many rounds are
# left.
CRATES = {
    "copies": ([it for it in EDITS if it not in ("unreadable", "unproved", "least", "most") and not it.startswith(("branch-", "loop-"))], 3, 6),
    "answers": ([it for it in EDITS if it.startswith(("branch-", "loop-"))], 8, 0),
    "places": (["wrong", "wrong-beside-its-callee"], 2, 0),
    "rounds": (["wrong", "right", "unreadable"], 0, 4),
    "constants": (["least", "most"], 0, 1),
    "unproved": (["unproved"], 0, 0),
}

# The files of two crates, of a tool and of a page, by their paths. Two edits of `high` name goals, and the third is in must-fail/.
FILES = {
    "crates.txt": "low:\nhigh: low\n",
    "crates/low/src/lib.rt": "//! Nothing.\n#![tactic(auto)]\n",
    "crates/low/specs/Lib.antt": "pub mod More\n",
    "crates/low/specs/More.antt": "use Rattle.std.specs.Prelude.{ℕ, ◌+◌}\n\nabbrev pub more : ℕ → ℕ\nmore count = count + 1\n",
    **{f"crates/high/{path}": text.replace("NAME", "high") for path, text in {"src/lib.rt": CODE, **BESIDE}.items()},
    "crates/high/must-fail/wrong.edit": f"file: src/lib.rt\nold: {EDITS['wrong'][0]}\n",
    **{f"crates/high/wrong-bodies/{it}.edit": f"file: src/lib.rt\nold: {EDITS[it][0]}\n" for it in ("least", "most")},
    "tool.py": "# A tool.\n",
    "page.md": "A page.\n",
}

# Changes of these files, by an old text and a new one, and which edits are known then of those that were refused before.
CHANGES = {
    "page.md": ("A page", "Another page", ["least", "most", "wrong"]),
    "tool.py": ("A tool", "Another tool", []),
    "crates/high/src/lib.rt": ("/// Two more too.", "/// Two more.", []),
    "crates/high/proofs/as_second/Answers.antt": ("pub returns", "-- Two more.\npub returns", []),
    "crates/low/specs/More.antt": ("count + 1", "1 + count", []),
    "crates/high/must-fail/wrong.edit": ("count + 2", "count + 3", ["least", "most"]),
    "crates/high/wrong-bodies/most.edit": ("usize = 7", "usize = 9", ["wrong"]),
}


def write_crates(root):
    write(f"{root}/crates.txt", "".join(f"{name}:\n" for name in CRATES))
    for name, (edits, *_) in CRATES.items():
        code = CODE if name != "unproved" else CODE.replace("result ≤ 8", "result ≤ 7")
        for path, text in {"src/lib.rt": code, **BESIDE}.items():
            write(f"{root}/crates/{name}/{path}", text.replace("NAME", name))
        for edit in edits:
            write(f"{root}/crates/{name}/wrong-bodies/{edit}.edit", f"file: src/lib.rt\nold: {EDITS[edit][0]}\n")


def said_of_edits(root):
    """Returns the messages about each edit of the crates in this folder, by their names, and of each crate how many edits were
    refused in its first check, and how many rounds there were."""
    write_crates(root)
    os.chdir(root)
    found, said = wrong_bodies.look(toolchain().rtlib.crates_below(root))
    counts = {}
    for crate, (bodies, edits) in found.items():
        with tempfile.TemporaryDirectory(prefix="wrong-bodies-") as folder:
            rounds = wrong_bodies.Rounds(crate, [it for it in edits if not it.fault], bodies, folder)
            said += [why for _, why in rounds.run().values()]
        counts[crate.name] = rounds.together, rounds.count
        print(f"{crate.name}: {rounds.together} in the first check, {rounds.count} rounds: {rounds.seconds:.0f} processor seconds")
    return dict(line.partition(".edit: ")[::2] for line in said), counts


def begin(root, anew=False):
    """Begins a run for the crate `high`, and returns it, the crate, its edits, and the names of those that are known."""
    crate = next(it for it in toolchain().rtlib.crates_below(root) if it.name == "high")
    refusals = wrong_bodies.Refusals([crate], anew)
    edits = wrong_bodies.look([crate])[0][crate][1]
    with contextlib.redirect_stdout(io.StringIO()) as crate.deps[0].out:
        wrong_bodies.build_libraries(crate.deps, False)
    return refusals, crate, edits, sorted(it.name[len("high/") : -len(".edit")] for it in refusals.look(crate, edits))


def run(*words):
    """Returns how many edits of the crate `high` a whole run tries, how many it knows, and how many passed."""
    with contextlib.redirect_stdout(io.StringIO()) as said:
        wrong_bodies.main(["high", *words])
    return [int(it) for it in re.findall(r"(?m)^(\d+) edits tried, (\d+) known .*\n(\d+) passed, 0 failed\n", said.getvalue())[0]]


def faults_of_known(root):
    """Returns after which steps other edits are known than should be, or share a round, and how many steps there were."""
    wrong_bodies.ROOT, wrong_bodies.TOOL, toolchain().STORE = root, [f"{root}/tool.py"], f"{root}/kept"
    # a disk that is nearly full keeps nothing
    toolchain().STORE_LEAVES = 0
    for path, text in FILES.items():
        write(f"{root}/{path}", text)
    steps = [("a first run", run(), [3, 0, 3]), ("a second run", run(), [0, 3, 3]), ("a run after the gate", run("--after-gate"), [0, 2, 2])]
    steps.append(("--anew", begin(root, True)[-1], []))
    for path, (old, new, wanted) in CHANGES.items():
        write(f"{root}/{path}", FILES[path].replace(old, new))
        steps.append((f"a change of {path}", begin(root)[-1], wanted))
        write(f"{root}/{path}", FILES[path])
    kit_sum, toolchain().kit_sum = toolchain().kit_sum, lambda: "another"
    steps.append(("another toolchain", begin(root)[-1], []))
    toolchain().kit_sum = kit_sum
    steps.append(("all changed back", begin(root)[-1], ["least", "most", "wrong"]))
    for name in os.listdir(f"{root}/kept/wrong-bodies/edits"):
        os.truncate(f"{root}/kept/wrong-bodies/edits/{name}", 99)
    steps.append(("files cut off", begin(root)[-1], []))
    for path in ("src/lib.rt", "wrong-bodies/most.edit"):
        refusals, crate, edits, _ = begin(root)
        os.utime(f"{crate.folder}/{path}")
        refusals.keep(crate, {it: (True, "refused") for it in edits})
        steps.append((f"{path} touched meanwhile", begin(root)[-1], []))
    refusals, crate, edits, _ = begin(root)
    refusals.keep(crate, {it: (it.goal == "", "said") for it in edits})
    steps.append(("two not refused", begin(root)[-1], ["wrong"]))
    for it in os.scandir(f"{root}/kept/wrong-bodies/edits"):
        os.utime(it, (0, 0))
    steps.append(("many years", begin(root)[-1], []))
    body = next(it for it in edits if it.is_of_bodies())
    body.goal = "returns"
    steps.append(("an edit of a body named a goal", [body.meets(it) for it in edits], [True] * len(edits)))
    return [f"after {what}: found {found}, wanted {wanted}" for what, found, wanted in steps if found != wanted], len(steps)


def main():
    with tempfile.TemporaryDirectory(prefix="edited-") as root:
        said, counts = said_of_edits(root)
    with tempfile.TemporaryDirectory(prefix="edited-") as root:
        faults, steps = faults_of_known(root) if hasattr(toolchain(), "Kept") else ([], 0)
    wanted = {f"{name}/{edit}": EDITS[edit][1] for name, (edits, *_) in CRATES.items() for edit in edits}
    failed = [f"{it}: found {said.get(it)!r}, wanted {wanted[it]!r}" for it in wanted if not said.get(it, "").startswith(wanted[it])]
    failed += [f"{name}: in the first check and in rounds {counts[name]}, wanted {of_crate[1:]}" for name, of_crate in CRATES.items() if counts[name] != of_crate[1:]]
    failed += faults
    print(*failed, sep="\n", end="\n" if failed else "")
    print(f"{len(wanted) + len(CRATES) + steps - len(failed)} passed, {len(failed)} failed")
    return 1 if failed else 0


if __name__ == "__main__":
    sys.exit(main())
