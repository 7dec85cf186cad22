#!/usr/bin/env python3
"""Tests that the prover refuses wrong bodies: many of them in one check, each in the function that it edits.

usage: python3 -m tests.gate.wrong_bodies [--look | --one-by-one | --anew] [--after-gate] [CRATE ..]

The edits are crates/NAME/wrong-bodies/*.edit, and crates/NAME/must-fail/*.edit, which the toolchain's own gate tries.
CONTRIBUTING.md says how to write one. Most are tried in one check of their crate: one edit of each function in its place, and
others in copies of the function beside it. All other functions have empty bodies and open proofs there. What is left is tried
in rounds: edits of different functions together, and most edits of a definition alone. The functions have been proved as they
are. Copies without edits, and a method of a trait without one, have to pass in the same check: so a function doesn't fail
because others have empty bodies. Edits of definitions share a round if each names another goal that has to stay open. An edit
that takes the goal of a kept answer away is in doubt, unless it names the goal that stays open instead.

An edit that an earlier run on this machine saw refused isn't tried again while all that decides about it is the same, if the
toolchain keeps its own edits like that. --anew and --one-by-one try all. What no run asked for in 30 days is forgotten.

--look only lists the edits that cannot be applied. --one-by-one also tries each edit as the toolchain's gate does, in a
check of the whole crate, and fails if the two disagree. Both need the crates built, which proves them, and those that they
depend on: what the gate has built since the last change is used, and the rest is built. --after-gate is for the gate itself:
it has tried the edits of must-fail/, and may have taken a library from an earlier run, with older times. The last line is
'N passed, M failed'."""

import argparse
import collections
import contextlib
import glob
import itertools
import os
import re
import shutil
import subprocess
import sys
import tempfile
import threading
import time

from tests.gate.functions import check_command, functions_of, toolchain
from tests.support.harness import ROOT, read, read_bytes, write

FOLDERS = ("wrong-bodies", "must-fail")
# How long a refusal is kept that no run asks for, in seconds, and how many are kept at most.
KEPT_FOR, KEPT_MOST = 30 * 24 * 3600, 20_000
# This tool's own files.
TOOL = [f"{ROOT}/tests/{it}" for it in ("gate/wrong_bodies.py", "gate/functions.py", "support/harness.py")]
# A goal of a function that is open, on a line above the function's own.
GOAL = re.compile(r"note: (src/\S+: .*\(`\S+`\).*)")
# The beginnings of what a check says of a function whose proof passes, and of one that those which it calls may make fail.
PASSED = ("no holes", "depends on a hole", "proved")
FAILED_BELOW = ("no proof: it calls", "not proved; it calls", "not proved; it stands on")
# The message of antt about a proof file that names what an edit removed, and rattle's about one that it doesn't read, since the
# borrow checker doesn't cover the edited body.
NAMES = re.compile(r"has no field|is not in scope|has no `|was not admitted")
UNREAD = re.compile(f"{NAMES.pattern}|rattle does not read")
# The one about an answer or an invariant that stands under the name of no goal.
LOST = re.compile(r"(?s): error: `(\S+)`: .*module `\S+\.(?:Goals|Given)`\s+has no `\1`")
# The beginning of what is said of an edit whose refusal shows nothing, as it stands.
IN_DOUBT = "IN DOUBT: "
# A declaration that antt refuses, and how its message begins. A check prints a file to begin with for a function that has open
# goals, which takes a fifth of its time, but prints none if the function's answers have an error.
REFUSED_ANSWER, OF_REFUSED_ANSWER = "\nno_file_is_printed : no_file_is_printed\n", "error: `no_file_is_printed`"


class Edit:
    """An edit, the functions that its texts are in, and those that have to refuse it."""

    def __init__(self, crate, path, functions):
        self.crate, self.path, self.name = crate, path, f"{crate.name}/{os.path.basename(path)}"
        self.texts, self.fault = toolchain().read_edit(path, crate.folder)
        lines = [line.partition(": ") for line in read(path).split("\n")]
        refused_by = next((words.strip() for key, _, words in lines if key == "refused by"), None)
        # the function that has to refuse it, and the goal of it that has to stay open, if the edit names them
        self.refused_by, _, self.goal = (refused_by or "").partition(" at ")
        # what was replaced in each file, in turn: where, and the lengths of the text and of the other
        self.changes = {}
        self.edited = set() if self.fault else self.functions_at(lines, functions)
        self.wanted = {self.refused_by} if self.refused_by else self.edited
        if None in self.wanted and not self.fault:
            self.fault = "it edits no function, and has no line 'refused by: FUNCTION'"

    def functions_at(self, lines, functions):
        """Returns the functions that the texts are in, and None for a text that is in none."""
        found, file, texts = set(), None, {}
        for key, _, words in lines:
            if key == "file":
                file = words.strip()
                texts.setdefault(file, read_bytes(f"{self.crate.folder}/{file}"))
            elif key == "old":
                old, at = words.encode(), texts[file].find(words.encode())
                here = place_before(self.changes.setdefault(file, []), at)
                found.add(next((it.path for it in functions if it.holds(file, here)), None))
            elif key == "new":
                texts[file] = texts[file].replace(old, words.encode())
                self.changes[file].append((at, len(old), len(words.encode())))
        return found

    def item_of(self, function):
        """Returns the text of a function that it edits, as it makes that."""
        text, changes = self.texts[function.file].encode(), self.changes[function.file]
        start, end = place_after(changes, function.start), place_after(changes, function.end)
        return text[start:end]

    def is_of_gate(self):
        """Whether the toolchain's own gate tries it."""
        return os.path.basename(os.path.dirname(self.path)) == "must-fail"

    def is_of_bodies(self):
        """Whether it edits only bodies, which no other function's proof looks into, and one of these functions has to refuse
        it."""
        return None not in self.edited and self.wanted <= self.edited

    def meets(self, other):
        """Whether it can't share a round with another edit: only one of them is of bodies; or both edit the body of a function;
        or both are of definitions, and don't name two goals."""
        if self.is_of_bodies() or other.is_of_bodies():
            return self.is_of_bodies() != other.is_of_bodies() or bool(self.edited & other.edited)
        return not (self.goal and other.goal) or (self.wanted, self.goal) == (other.wanted, other.goal)


def place_before(changes, at):
    """Returns the place that a place in an edited text had before these changes, each of which replaced a text by one of
    another length."""
    for start, old, new in reversed(changes):
        at = at - new + old if at >= start + new else min(at, start)
    return at


def place_after(changes, at):
    """Returns the place in an edited text of a place outside the texts that these changes replaced."""
    for start, old, new in changes:
        at += new - old if start < at else 0
    return at


class Report:
    """The results of a check for each function, by the function's path in its crate."""

    def __init__(self, crate, said, changed, killed_by=None):
        self.killed_by = killed_by
        self.name, self.lines = crate.name, [it for it in said.rstrip("\n").split("\n") if OF_REFUSED_ANSWER not in it]
        self.text, self.ended = "\n".join(self.lines), self.lines[-1].startswith("only=")
        self.unread = [it for it in self.lines if toolchain().unread(it, changed)]
        self.status, self.goals, goals = {}, {}, []
        for line in self.lines:
            found = re.match(rf"fn {crate.name}::(\S+): (.*)", line)
            goals += [it[1] for it in [GOAL.match(line)] if it]
            if found:
                self.status[found[1]], self.goals[found[1]] = found[2], goals
            if found or line.startswith("struct "):
                goals = []

    def of(self, path):
        """Returns the symbols of a function and of its closures; `m::fn::f::find` is that of a closure in `m::f`."""
        plain = {it: re.sub(r"\bfn::", "", it, count=1) for it in self.status}
        return [it for it in self.status if it == path or plain[it] != it and plain[it].startswith(f"{path}::")]

    def passes(self, path):
        """Whether a function's own goals are proved, and those of its closures. A function that it calls may fail."""
        return path in self.status and all(map(self.passes_alone, self.of(path)))

    def passes_alone(self, symbol):
        return self.status[symbol].startswith(PASSED) or self.fails_below(symbol)

    def fails_below(self, symbol):
        """Whether a function fails only because of those that it calls."""
        own = f"Rattle.{self.name}.proofs.{symbol.replace('::', '.')}."
        stands_on = re.findall(rf"`(Rattle\.{self.name}\.proofs\.[^`]+)`", self.status[symbol])
        is_of_callees = all(".Answers." in it and not it.startswith(own) for it in stands_on)
        has_own_faults = not is_of_callees or self.goals[symbol] or self.errors(symbol, True)
        return self.status[symbol].startswith(FAILED_BELOW) and not has_own_faults

    def errors(self, symbol, is_of_body):
        """Returns the errors in the proof of a function, each with its second line if it has one; if an edit isn't of a body, those
        in the lemmas that it uses, too."""
        own = f"proofs/{symbol.replace('::', '/')}/" if is_of_body else "proofs/"
        return [it[0] for it in re.finditer(rf"(?m)^(\./)?{re.escape(own)}\S+: error.*(\n  .*)?", self.text)]

    def refusal(self, path, is_of_body, goal):
        """Returns why a function is refused in its own goals, or at this goal if one is named, or None; and why what else was found
        shows nothing. If an edit isn't of a body, the lemmas that the function uses count, too."""
        flaw = None
        for symbol in self.of(path):
            if not self.status[symbol].startswith(("no proof", "not proved")):
                continue
            left = [it for it in self.goals[symbol] if not goal or f"(`{goal}`)" in it]
            told = self.errors(symbol, is_of_body)
            lost = next((it[1] for it in map(LOST.search, told) if it), None)
            if left and (goal or not lost):
                return left[0], None
            if goal:
                continue
            first = next((it for it in told if not UNREAD.search(it)), None)
            if first or "`search` did not prove" in self.status[symbol] and not lost:
                return first or self.status[symbol], None
            if left:
                # a goal without an answer may be the one whose answer is lost, and true
                flaw = f"{IN_DOUBT}it takes away the goal of {lost}, whose proof may be that of {left[0]}"
            elif told and not flaw:
                are_gone = all(NAMES.search(it.partition("\n")[0]) for it in told)
                flaw = f"{'BAD EDIT: ' if are_gone else IN_DOUBT}refused only because its proof can't be read: {told[0]}"
        return None, flaw


class Copy:
    """A copy of a function that stands beside it, under a name of its own, as an edit makes it if one is given."""

    def __init__(self, function, ending, text, edit):
        self.of, self.parts, self.edit = function, [*function.parts[:-1], f"{function.parts[-1]}_{ending}"], edit
        first, end = (it - function.start for it in function.name)
        self.text = text[:first] + self.parts[-1].encode() + text[end:]

    @property
    def path(self):
        return "::".join(self.parts)


def proof_of(folder, function):
    """Returns the folder of a function's proof in this folder of a crate; None if it shares a proof +NAME with functions that
    it calls and that call it."""
    proof = f"{folder}/proofs/{function.path.replace('::', '/')}"
    return None if glob.glob(f"{os.path.dirname(proof)}/+*") else proof


class Trial:
    """A copy of a crate in which all but some functions have empty bodies and open proofs. Edits of bodies stand in the places of
    their functions, and copies of functions beside these."""

    def __init__(self, crate, functions, shown, folder, edits=(), copies=()):
        self.crate, self.folder, self.seconds = crate, folder, 0.0
        self.changed, self.spoiled = {file for edit in edits for file in edit.texts}, set()
        for part in toolchain().rtlib.PARTS:
            if os.path.isdir(f"{crate.folder}/{part}"):
                shutil.copytree(f"{crate.folder}/{part}", f"{folder}/{part}")
        for function in [it for it in functions if it.path in shown]:
            self.begin_answers(function)
        for copy in copies:
            self.copy_proof(copy)
        placed = [(it, edit) for edit in edits for it in functions if it.path in edit.wanted]
        for function, edit in placed + [(it, it.edit) for it in copies if it.edit]:
            self.drop_answer(function, edit.goal)
            self.spoil_answers(function)
        opened = [it for it in functions if it.path not in shown and self.leave_open(it)]
        edited = {it: edit for edit in edits for it in functions if it.path in edit.edited}
        # from the end of each file backwards, so that the places before stay right
        for function in sorted(functions, key=lambda it: it.first, reverse=True):
            beside = b"".join(it.text for it in copies if it.of is function)
            if function in edited:
                self.rewrite(function, function.start, edited[function].item_of(function) + beside)
            elif function in opened and not any(map(function.surrounds, functions)) and not any(it.surrounds(function) for it in edited):
                self.rewrite(function, function.first, b"{ unreachable!() }" + beside)
            elif beside:
                self.rewrite(function, function.end, beside)

    def begin_answers(self, function):
        """Gives a function without a proof file one without answers. A check that has to offer a new file takes twice the
        time."""
        proof = proof_of(self.folder, function)
        if proof and not os.path.isfile(f"{proof}/Answers.antt") and not os.path.isfile(f"{proof}/Proof.antt"):
            os.makedirs(proof, exist_ok=True)
            with open(f"{proof}/Answers.antt", "w", encoding="utf-8") as file:
                file.write("-- no answers\n")

    def spoil_answers(self, function):
        """Adds a refused answer to those of a function that has to be refused, if it has any: a check then prints less."""
        file = f"{proof_of(self.folder, function) or ''}/Answers.antt"
        if os.path.isfile(file) and file not in self.spoiled:
            self.spoiled.add(file)
            with open(file, "a", encoding="utf-8") as it:
                it.write(REFUSED_ANSWER)

    def drop_answer(self, function, goal):
        """Removes the answer to this goal from those of a function, so that a check tries to prove the goal. An empty line ends an
        answer."""
        file = f"{proof_of(self.folder, function) or ''}/Answers.antt"
        if goal and os.path.isfile(file):
            write(file, re.sub(rf"(?ms)^pub {re.escape(goal)} : .*?(\n\n|\Z)", "", read(file)))

    def copy_proof(self, copy):
        """Gives a copy of a function the proof of that function, under its own name."""
        proof, own, name = proof_of(self.folder, copy.of), proof_of(self.folder, copy), copy.of.parts[-1]
        if os.path.isdir(proof):
            shutil.copytree(proof, own)
        path = re.escape(f"Rattle.{self.crate.name}.proofs.{'.'.join(copy.of.parts)}")
        for file in glob.glob(f"{own}/**/*.antt", recursive=True):
            text = read_bytes(file).decode()
            text = re.sub(rf"\b{path}\b(?!-)", f"Rattle.{self.crate.name}.proofs.{'.'.join(copy.parts)}", text)
            write(file, re.sub(rf"\b{name}_spec\b", f"{copy.parts[-1]}_spec", text))
        self.begin_answers(copy)

    def leave_open(self, function):
        """Leaves the proof of a function open. Returns whether that was possible."""
        proof = proof_of(self.folder, function)
        if not proof:
            return False
        shutil.rmtree(proof, ignore_errors=True)
        name = function.parts[-1]
        statement = f"use Rattle.{self.crate.name}.proofs.{function.path.replace('::', '.')}.Statement.{{statement}}\n\n"
        write(f"{proof}/Proof.antt", f"{statement}pub {name}_spec : {{M : Type 1}} → statement M\n{name}_spec = ?\n")
        return True

    def rewrite(self, function, start, words):
        """Replaces a function from this place on. Functions that aren't checked lose their bodies: a check would translate
        these, and check all that they call."""
        path = f"{self.folder}/{function.file}"
        text = read_bytes(path)
        write(path, text[:start] + words + text[function.end :])

    def apply(self, edit, functions):
        """Applies an edit of a definition, which one of these functions has to refuse. Returns why, if that is impossible."""
        for function in [it for it in functions if it.path in edit.wanted]:
            self.spoil_answers(function)
        texts, fault = toolchain().read_edit(edit.path, self.folder)
        for path, text in texts.items() if not fault else ():
            self.changed.add(path)
            write(f"{self.folder}/{path}", text)
        return fault

    def check(self, wanted, kept):
        """Checks these functions, on top of what earlier checks of the crate have kept if a folder for that is given."""
        keeping = ["--incremental", kept] if kept else []
        only = [word for path in sorted(wanted) for word in ("--only", path)]
        flags = ["--jobs", "1", "--allow-holes", *keeping, *only]
        words = check_command(self.crate, flags)
        how = {"stdin": subprocess.DEVNULL, "stdout": subprocess.PIPE, "stderr": subprocess.STDOUT}
        # a check that is killed, most likely for lack of memory, is tried once more
        for _ in range(2):
            with subprocess.Popen(words, cwd=self.folder, **how) as run:
                said = run.stdout.read().decode(errors="replace")
                _, run.returncode, used = os.wait4(run.pid, 0)
            self.seconds += used.ru_utime + used.ru_stime
            if not os.WIFSIGNALED(run.returncode):
                break
        return Report(self.crate, said, self.changed, os.WTERMSIG(run.returncode) if os.WIFSIGNALED(run.returncode) else None)


class Rounds:
    """The checks of a crate with edits, and their result for each edit."""

    def __init__(self, crate, edits, functions, folder):
        self.crate, self.edits, self.functions, self.folder = crate, edits, functions, folder
        self.methods = {it.path for it in functions if it.is_of_trait}
        # the paths of the functions that were seen to pass without edits, and of those that were seen to fail
        self.passed, self.fallen = set(), set()
        self.said, self.together, self.count, self.seconds = {}, 0, 0, 0.0

    def say(self, edit, refused, why):
        self.said[edit] = refused, f"{edit.name}: {why}"

    def left(self):
        return [it for it in self.edits if it not in self.said]

    def trial(self, shown, edits=(), copies=()):
        """Makes a trial in which these functions have their bodies, or those that edits of bodies give them."""
        shutil.rmtree(f"{self.folder}/trial", ignore_errors=True)
        return Trial(self.crate, self.functions, shown, f"{self.folder}/trial", edits, copies)

    def check(self, trial, paths, keeps=True):
        """Returns the result of a check for these functions."""
        report = trial.check(paths, f"{self.folder}/kept" if keeps else None)
        self.seconds += trial.seconds
        return report

    def run(self):
        if self.edits:
            self.try_together()
            self.control()
            for edits in self.shared(self.left()):
                for edit in self.round(edits):
                    self.round([edit])
        return self.said

    def try_together(self):
        """Tries as many edits of bodies as possible in one check: in copies those of functions that are controlled, and of the
        others one in its place. Edits that weren't refused are left for the rounds."""
        bodies = [it for it in self.edits if it.is_of_bodies()]
        if not bodies:
            return
        copyable = [it for it in bodies if self.can_be_copied(it)]
        controlled = self.controlled(copyable)
        copied = [it for it in copyable if it.wanted & controlled]
        placed = next(iter(self.shared([it for it in bodies if it not in copied])), [])
        plain = {path: self.copy(path, "unedited") for path in sorted({path for it in copied for path in it.wanted})}
        beside = self.method_beside(bodies)
        edited = {it: [self.copy(path, f"edited_{at}", it) for path in sorted(it.wanted)] for at, it in enumerate(copied)}
        copies = [*plain.values(), *itertools.chain(*edited.values())]
        paths = {path for it in placed for path in it.wanted} | {it.path for it in copies} | beside
        trial = self.trial({path for it in placed for path in it.edited} | beside, placed, copies)
        # a check of many functions that keeps what it has checked tries twice what it refuses
        report = self.check(trial, paths, keeps=False)
        if not report.ended or report.unread:
            return
        self.passed = {path for path, it in plain.items() if report.passes(it.path)} | {it for it in beside if report.passes(it)}
        self.fallen = plain.keys() - self.passed
        results = {edit: result(edit, report) for edit in placed if self.is_controlled(edit)}
        results |= {edit: result(edit, report, [it.path for it in made]) for edit, made in edited.items() if edit.wanted <= self.passed}
        for edit in filter(results.get, results):
            self.say(edit, *results[edit])
        self.together = len(self.said)

    def controlled(self, edits):
        """Returns the functions of which a copy without an edit has to pass: those of several edits, or else one, a short one
        that calls another if there is one."""
        edited = collections.Counter(path for it in edits for path in it.wanted)
        names = {it.parts[-1] for it in self.functions}
        bodies = {it.path: self.text_of(it)[it.first - it.start :].decode() for it in self.functions if it.path in edited}
        calls = {path: bool(names & {*re.findall(r"\b(\w+)\(", body)}) for path, body in bodies.items()}
        several = {path for path in edited if edited[path] > 1}
        return several or {*sorted(bodies, key=lambda it: (not calls[it], len(bodies[it])))[:1]}

    def method_beside(self, edits):
        """Returns the path of a short method of a trait that no edit is about, if these edits are about other such methods.
        It is checked in place of copies of these, which can't be made."""
        edited = {path for it in edits for path in it.edited}
        free = [it for it in self.functions if it.is_of_trait and it.path not in edited and proof_of(self.crate.folder, it)]
        return {it.path for it in sorted(free, key=lambda it: it.end - it.start)[:1] if edited & self.methods}

    def is_controlled(self, edit):
        """Whether a function without an edit was seen to pass, a method of a trait if the edit is of one, and the edit's own
        functions weren't seen to fail."""
        seen = self.passed & self.methods if edit.wanted & self.methods else self.passed
        return bool(seen) and not edit.wanted & self.fallen

    def can_be_copied(self, edit):
        """Whether copies of the functions that have to refuse an edit can stand beside these: it edits bodies, and they are
        not of a trait or of an impl of one, not one in another, and not in a folder where functions share a proof."""
        found = [it for it in self.functions if it.path in edit.wanted]
        is_inside = any(it.surrounds(other) or other.surrounds(it) for it in self.functions for other in found)
        shares = any(proof_of(self.crate.folder, it) is None for it in found)
        return edit.is_of_bodies() and not any(it.is_of_trait for it in found) and not is_inside and not shares

    def text_of(self, function):
        return read_bytes(f"{self.crate.folder}/{function.file}")[function.start : function.end]

    def copy(self, path, ending, edit=None):
        """Returns a copy of a function, as an edit makes it if one is given."""
        function = next(it for it in self.functions if it.path == path)
        return Copy(function, ending, edit.item_of(function) if edit else self.text_of(function), edit)

    def control(self):
        """Checks functions whose bodies are edited as they are without the edits, where the first check has shown too little of
        them."""
        unseen = [it for it in self.left() if it.is_of_bodies() and not self.is_controlled(it)]
        paths = {path for it in unseen for path in it.wanted} - self.passed
        report = self.check(self.trial(paths), paths) if paths else None
        for edit in unseen:
            fallen = [it for it in sorted(edit.wanted & paths) if not report.ended or not report.passes(it)]
            if fallen:
                said = report.status.get(fallen[0], report.lines[-1])
                self.say(edit, False, f"NOT TRIED: without any edit the prover says of {fallen[0]}: {said[:300]}")

    def shared(self, edits):
        """Returns edits in rounds. Those of a round edit the bodies of different functions, or definitions, of which each lets
        another goal stay open."""
        rounds = []
        for edit in edits:
            fits = [it for it in rounds if not any(map(edit.meets, it))]
            if fits:
                fits[0].append(edit)
            else:
                rounds.append([edit])
        return rounds

    def round(self, edits):
        """Tries edits together, and returns those that have to be tried alone, since another edit may be why they weren't
        refused. Beside an edit of a definition all functions keep their bodies and proofs, so nothing but the edit differs from
        the crate that was proved."""
        self.count += 1
        bodies = [it for it in edits if it.is_of_bodies()]
        shown = {path for it in bodies for path in it.wanted | it.edited} or {it.path for it in self.functions}
        trial = self.trial(shown, bodies)
        for edit in [it for it in edits if it not in bodies]:
            fault = trial.apply(edit, self.functions)
            if fault and len(edits) > 1:
                return edits
            if fault:
                self.say(edit, False, f"BAD EDIT: {fault}")
                return []
        report = self.check(trial, {path for it in edits for path in it.wanted})
        for edit in edits:
            if len(edits) == 1:
                self.say(edit, *self.judged(edit, report))
            elif report.ended and not report.unread and result(edit, report):
                self.say(edit, *result(edit, report))
        return [it for it in edits if it not in self.said]

    def judged(self, edit, report):
        """Returns the result of a round of only this edit."""
        if report.killed_by:
            return False, f"NOT TRIED: its check was killed twice, the second time by signal {report.killed_by}"
        if report.unread or not report.ended:
            told = report.unread or [it for it in report.lines if "error" in it] or report.lines
            return False, f"BAD EDIT: the prover cannot read the edited text: {told[0][:200]}"
        said = "; ".join(f"{path}: {report.status.get(path)}" for path in sorted(edit.wanted))
        return result(edit, report) or (False, f"not refused in its own function, of which the prover says: {said[:300]}")


def result(edit, report, paths=None):
    """Returns whether an edit passes that these functions have to refuse, which are its own if none are given, and why; None if
    they have no open goal. One in doubt passes, but is counted."""
    found = [report.refusal(path, edit.is_of_bodies(), edit.goal) for path in paths or sorted(edit.wanted)]
    whys, flaws = ([it for it in some if it] for some in zip(*found))
    round_of = f"at {edit.goal}" if edit.goal else "in a round of its own, since it edits more than a body"
    by = "" if edit.is_of_bodies() else f" by {edit.refused_by}, {round_of}"
    if whys:
        return True, f"refused, as it must be{by}: {whys[0][:160]}"
    return (flaws[0].startswith(IN_DOUBT), " ".join(flaws[0].split())[:300]) if flaws else None


class Refusals:
    """The edits that earlier runs on this machine refused. They are kept as the toolchain keeps its own, in a directory beside
    these: each under a sum of all that decides about it, so none fits what has changed. What isn't whole there counts for
    nothing."""

    def __init__(self, crates, anew):
        self.kept = toolchain().Kept(crates, anew) if hasattr(toolchain(), "Kept") else None
        if self.kept and self.kept.at:
            self.kept.at += "/wrong-bodies"
            with contextlib.suppress(OSError):
                os.makedirs(self.kept.at, exist_ok=True)
                self.forget()
        self.tools = [toolchain().rtlib.sum_of(it) for it in (*TOOL, toolchain().rtlib.RATTLE)]
        # the edits' files before any is read, what decides about the crates, and where each edit is kept
        self.files = {it: files_of_edits(it) for it in crates} if self.kept else {}
        self.sums, self.names, self.known = {}, {}, {}

    def forget(self):
        """Removes what no run asked for in a long time, and what is too many."""
        newest = sorted(((it.stat().st_mtime, it.path) for it in os.scandir(f"{self.kept.at}/edits")), reverse=True)
        for number, (asked, path) in enumerate(newest):
            if number >= KEPT_MOST or time.time() - asked > KEPT_FOR:
                os.remove(path)

    def sum_of(self, crate):
        """Returns what decides about every edit of a crate: the toolchain, this tool, the crate's files and line in crates.txt, and
        the libraries below as they were built, whose formats hold sums of their files. Also returns what tells whether one of these
        was built again."""
        below = [(it.name, toolchain().rtlib.sum_of(f"{it.rlib}/format")) for it in crate.below()]
        return (self.tools, toolchain().own_sum(crate), below), [self.kept.mark(it) for it in crate.below()]

    def look(self, crate, edits):
        """Returns the results of those of a crate's edits that are known. The libraries below are built."""
        if not self.kept:
            return {}
        self.sums[crate] = self.sum_of(crate)
        for edit in edits:
            # edits of definitions that name goals share rounds, so the others may be why it was refused
            beside = [read_bytes(it.path) for it in edits if edit.goal and it.goal]
            self.names[edit] = self.kept.of_edit(edit.path, (self.sums[crate][0], beside))
            kind, why = self.kept.tried(self.names[edit]) or (None, None)
            if kind == toolchain().REFUSED:
                self.known[edit] = True, why
                with contextlib.suppress(OSError):
                    os.utime(f"{self.kept.at}/edits/{self.names[edit]}")
        return {it: self.known[it] for it in edits if it in self.known}

    def keep(self, crate, said):
        """Keeps the edits of a crate that were just refused, unless a file that decides about them was touched meanwhile."""
        if not self.kept:
            return
        now = self.kept.is_untouched(crate), files_of_edits(crate), self.sum_of(crate)
        for edit in said if now == (True, self.files[crate], self.sums[crate]) else ():
            if said[edit][0]:
                self.kept.keep_tried(self.names[edit], toolchain().REFUSED, said[edit][1])


def files_of_edits(crate):
    """Returns what tells whether a file in the directories of a crate's edits was changed, lost or added."""
    return [toolchain().listing(f"{crate.folder}/{it}") for it in FOLDERS]


def edits_of(crate):
    """Returns the crate's edits, and other files beside them."""
    good, bad = [], []
    for name in FOLDERS:
        folder = f"{crate.folder}/{name}"
        for file in sorted(os.listdir(folder) if os.path.isdir(folder) else []):
            is_edit = re.fullmatch(r"[\w-][\w.-]*\.edit", file) and os.path.isfile(f"{folder}/{file}")
            (good if is_edit else bad).append(f"{folder}/{file}")
    return good, [it for it in bad if not it.endswith(".md")]


def is_newer(crate):
    """Whether the crate's library was built after the last change of its sources."""
    files = [it for made in [crate, *crate.below()] for it in toolchain().rtlib.files_of(made.folder)]
    built = f"{crate.rlib}/format"
    return os.path.isfile(built) and max(map(os.path.getmtime, files)) <= os.path.getmtime(built)


def build_libraries(crates, is_after_gate):
    """Builds the crates and those that they depend on, which proves their functions as they are. The libraries of the gate have
    no stamp, and fit only each other, so they are used if all are there. Where others stood before a gate, it puts these back,
    which have a stamp and may be older than their sources."""
    needed = list(dict.fromkeys(it for crate in crates for it in [*crate.below(), crate]))
    are_of_gate = all(os.path.isdir(it.rlib) and not os.path.isfile(f"{it.folder}/out/rlib/stamp") for it in needed)
    if are_of_gate and (is_after_gate or all(map(is_newer, needed))):
        return
    for crate in needed:
        if crate.build_rlib(["--jobs", "1"], anew=False):
            sys.exit(f"{crate.name} isn't proved, so no edit of it or above it was tried\n0 passed, 1 failed")


def look(crates):
    """Returns the edits of each crate, and those that cannot be applied."""
    found, faults = {}, []
    for crate in crates:
        paths, bad = edits_of(crate)
        functions = functions_of(crate.folder) if paths else []
        found[crate] = functions, [Edit(crate, path, functions) for path in paths]
        faults += [f"{it.name}: BAD EDIT: {it.fault}" for it in found[crate][1] if it.fault]
        faults += [f"{os.path.relpath(it, ROOT)}: BAD EDIT: its name is of letters, digits, _, - and . and ends in .edit" for it in bad]
    return found, faults


def in_rounds(crate, functions, edits, printing, refusals):
    """Runs the rounds of a crate for the edits that aren't known to be refused, and returns the result for each edit's path."""
    known = refusals.look(crate, edits)
    with tempfile.TemporaryDirectory(prefix="wrong-bodies-") as folder:
        rounds = Rounds(crate, [it for it in edits if it not in known], functions, folder)
        said = rounds.run()
    refusals.keep(crate, said)
    said.update(known)
    with printing:
        print(*[why for _, why in said.values()], sep="\n")
        doubts = sum(f": {IN_DOUBT}" in why for _, why in said.values())
        counts = f"{len(edits)} edits, {doubts} in doubt, {len(known)} known, {rounds.together} in the first check, {rounds.count} rounds"
        print(f"{crate.name}: {counts}: {rounds.seconds:.0f} processor seconds", flush=True)
    return {edit.path: refused for edit, (refused, _) in said.items()}


def one_by_one(crate, edits, printing):
    """Tries each edit as the toolchain's gate does, and returns the result for each edit's path, none if the crate isn't proved."""
    flags, refusals = ["--jobs", "1"], (toolchain().REFUSED, toolchain().AT_LIMIT)
    with tempfile.TemporaryDirectory(prefix="wrong-bodies-") as kept:
        # what no edit changes is checked once, and has to pass
        whole = toolchain().checked(crate, {}, flags, kept)
        tried = [toolchain().must_fail(crate, it.path, flags, kept) for it in edits] if whole.returncode == 0 else []
    with printing:
        if whole.returncode:
            print(f"{crate.name}: NOT TRIED one by one: the check without an edit ended with status {whole.returncode}")
        print(*[text for _, text in tried], sep="\n", flush=True)
    return {edit.path: outcome in refusals for edit, (outcome, _) in zip(edits, tried)}


def side_by_side(found, way):
    """Runs a way of trying edits on each crate, as many at a time as the machine has processors and memory for."""
    printing, tasks = threading.Lock(), {}
    for crate, (functions, edits) in found.items():
        call = lambda given, jobs, it=crate, edits=edits, functions=functions: way(it, functions, edits, printing)
        tasks[crate.name, "edits"] = [], len(edits), toolchain().need(crate), call
    return {path: refused for said in toolchain().in_lanes(tasks).values() for path, refused in said.items()}


def read_words(words):
    """Returns what the words of the command line ask for."""
    reader = argparse.ArgumentParser(prog="python3 -m tests.gate.wrong_bodies", description="Tests that the prover refuses wrong bodies.")
    ways = reader.add_mutually_exclusive_group()
    ways.add_argument("--look", action="store_true", help="only list the edits that cannot be applied")
    ways.add_argument("--one-by-one", action="store_true", help="also try each edit in a check of its whole crate, and compare")
    ways.add_argument("--anew", action="store_true", help="also try what an earlier run on this machine saw refused")
    reader.add_argument("--after-gate", action="store_true", help="take what the toolchain's gate has just built, and leave out what it has tried")
    reader.add_argument("names", metavar="CRATE", nargs="*", help="a crate whose edits are tried; without one those of all crates are")
    return reader.parse_args(words)


def main(words):
    options = read_words(words)
    os.chdir(ROOT)
    crates = [it for it in toolchain().rtlib.crates_below(ROOT) if not options.names or it.name in options.names]
    refusals = None if options.look else Refusals(crates, options.anew or options.one_by_one)
    found, faults = look(crates)
    faults += [f"{it}: crates.txt names no such crate" for it in options.names if it not in [crate.name for crate in crates]]
    print(*faults, sep="\n", end="\n" if faults else "")
    for _, edits in found.values():
        edits[:] = [it for it in edits if not it.fault and not (options.after_gate and it.is_of_gate())]
    found = {crate: it for crate, it in found.items() if it[1]}
    passed, failed = 0, len(faults)
    if not options.look:
        build_libraries(found, options.after_gate)
        said = side_by_side(found, lambda *given: in_rounds(*given, refusals))
        passed, failed = sum(said.values()), failed + len(said) - sum(said.values())
        if options.one_by_one:
            alone = side_by_side(found, lambda crate, _, edits, printing: one_by_one(crate, edits, printing))
            differ = sorted(it for it in said if said[it] != alone.get(it))
            for it in differ:
                print(f"{os.path.relpath(it, ROOT)}: the rounds and the toolchain's gate disagree")
            failed += len(differ)
        print(f"{len(said) - len(refusals.known)} edits tried, {len(refusals.known)} known from earlier runs on this machine")
    print(f"{passed} passed, {failed} failed")
    return 1 if failed else 0


if __name__ == "__main__":
    sys.exit(main(sys.argv[1:]))
