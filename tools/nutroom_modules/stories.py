"""What happens to each machine in a run."""

import dataclasses
import math

from nutroom_modules.bounds import goes_on, halts_when_cut_off, halts_when_returned, knows_again_within
from nutroom_modules.faults import Fault
from nutroom_modules.network import FINAL, HALTED
from nutroom_modules.plans import Plan
from nutroom_modules.times import SECOND


@dataclasses.dataclass
class Story:
    """What happened to a machine in a run. Times count from the zero of the description; clocks are the machine's own."""

    begun: int = None
    begun_clock: int = None
    final: int = None
    halted: int = None
    halted_clock: int = None
    # each phase and each notice with its time, a notice also with its UPS, and what happened to the network
    phases: list = dataclasses.field(default_factory=list)
    notices: list = dataclasses.field(default_factory=list)
    marks: list = dataclasses.field(default_factory=list)
    # the machine's clock as it read its last status, if it was cut off on battery for good
    last_read: int = None
    # whether the premises of what the theorem says about the machine held, and whether what it says was violated
    keeps_pace: bool = False
    is_wrong: bool = False
    # by when it has to be halted over links that came back, and the machine's clock then
    returned_end: int = None
    returned_clock: int = None

    def take_phase(self, time, clock, phase):
        self.phases.append((time, phase))
        if self.begun is None:
            self.begun, self.begun_clock = time, clock
        if self.final is None and phase in (FINAL, HALTED):
            self.final = time
        if phase == HALTED:
            self.halted, self.halted_clock = time, clock

    def end(self, bound):
        """Returns by when the machine has to be halted by its bound or, if its links came back, by that of the story; or None."""
        return bound.end if bound is not None and self.keeps_pace else self.returned_end

    def judge(self, plan, host, bound):
        """Tests the story against the theorem."""
        self.last_read = host.last_read()
        self.judge_bound(plan, host, bound)
        if self.last_read is not None:
            self.is_wrong |= self.halted is None or self.halted_clock > self.last_read + halts_when_cut_off(host.machine)

    def judge_bound(self, plan, host, bound):
        """Tests the story against a bound. It counts in whole seconds of the machine's clock; its premise is that the links of
        its lines keep pace until the shutdown begins."""
        if bound is None:
            self.keeps_pace = goes_on(plan.room, host.machine) and not host.cuts and not any(line.ups in plan.forced for line in host.machine.rules.lines)
            self.is_wrong = self.keeps_pace and self.begun is not None
            return
        if bound.start not in plan.scenes:
            # all were halted before
            self.keeps_pace = True
            return
        clock, broken = plan.scenes[bound.start][host.number]
        end = math.inf if self.begun is None else self.begun
        self.keeps_pace = not any(broken[i] for i in bound.lines) and not any(bound.start <= cut <= end for cut in host.cuts)
        if self.keeps_pace:
            self.is_wrong = self.is_late(clock, bound.begins, bound.halts)
        elif bound.counts_returns:
            self.judge_return(host, bound, clock)

    def is_late(self, clock, begins, halts):
        return self.halted is None or self.halted_clock > clock + halts or self.begun_clock > clock + begins

    def judge_return(self, host, bound, clock):
        """Tests the story against a bound over links that came back, and kept pace until the shutdown began. `clock` is the
        machine's at the start of the bound."""
        paces = [host.links[i].keeps_pace_at(math.inf if self.begun is None else self.begun) for i in bound.lines]
        if None in paces:
            return
        start, clock = max((bound.start, clock), *paces)
        begins, halts = knows_again_within(host.machine), halts_when_returned(host.machine)
        if bound.lasts(start, begins):
            self.returned_end, self.returned_clock = start + halts * SECOND, clock + halts
            self.is_wrong = self.is_late(clock, begins, halts)


def settled(room, nutsim, seed):
    """Returns a plan that was made with what nutsim tells for it, and that. Each plan is right up to one more phase than the
    one before it, and a machine has three of them, so few plans are needed."""
    known, last, told = {}, None, []
    for _ in range(3 * len(room.machines) + 2):
        plan = Plan(room, seed, known)
        if last is not None and last.steps[: len(plan.steps)] == plan.steps:
            return plan, told
        last, told = plan, nutsim.play(room, plan.steps)
        known = {plan.events[step - 1]: words[3] for step, words in told if words[0] == "monitor" and words[2] == "phase"}
    raise Fault("nutsim tells of the same steps now this and now that")


def play_run(room, nutsim, seed, number):
    """Plays a run. Returns its plan and the story of each machine."""
    plan, told = settled(room, nutsim, f"{seed} {number}")
    stories = [Story() for _ in room.machines]
    for step, words in told:
        if step <= len(plan.steps) and words[0] == "monitor" and int(words[1]) < len(stories):
            story, time, event = stories[int(words[1])], plan.times[step - 1], plan.events[step - 1]
            if words[2] == "phase":
                story.take_phase(time, event[-1], words[3])
            else:
                story.notices.append((time, words[3], room.ups_told(words[4]) if len(words) > 4 else None))
    for story, host, bound in zip(stories, plan.hosts, room.bounds):
        story.marks = host.marks
        story.judge(plan, host, bound)
    return plan, stories
