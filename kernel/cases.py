"""The cases of cases.txt: how they run in the guest, and whether each ends as it says."""

import collections
import os
import re
import struct

from guests import HERE, Guest, Said, fail
from messages import Names, tc_header
from states import State
from streams import judged

LINKS = (7, 8, 9)
RTM_GETTFILTER, DUMP = 46, 0x301  # NLM_F_REQUEST, NLM_F_DUMP
TERSE = struct.pack("<HHII", 12, 15, 1, 1)  # TCA_DUMP_FLAGS with TCA_DUMP_FLAGS_TERSE
INGRESS = 0xFFFFFFF2

Case = collections.namedtuple("Case", "name about steps")


def read_cases():
    """The cases of cases.txt, one for each value where there are several."""
    lines, out = [], []
    with open(f"{HERE}/cases.txt") as file:
        for line in file:
            if line.startswith("    "):
                lines[-1] += " " + line.strip()
            elif line.strip() and line[0] != "#":
                lines.append(line.rstrip())
    for line in lines:
        if line[0] == "=":
            name, values, about = re.fullmatch(r"= (\w+)(?: \[(.*)\])?: (.*)", line).groups()
            own = [it.strip() for it in values.split(" | ")] if values else [""]
            group = [Case(f"{name} {it}".strip(), about, []) for it in own]
            out += group
        else:
            for case, it in zip(group, own):
                case.steps.append(line.replace("$IT", it).split(" ", 1))
    return out


def has_others(case):
    """Whether another interface holds a block that d7 has."""
    return any("dev d8 ingress_block" in " ".join(step) for step in case.steps)


class Run:
    """A case in a guest: its lines there, and what is judged once it has run."""

    def __init__(self, case, guest, programs, names):
        self.case, self.programs, self.names = case, programs, names
        self.file = f"{guest.folder}/{re.sub('[^a-z0-9]+', '_', case.name)}"
        self.lines, self.count = [f"link {it}" for it in LINKS], 0
        for step in case.steps:
            self.lines += self.lines_of(step[0], step[1] if len(step) > 1 else "")
        self.number = guest.add_lines(self.lines)

    def lines_of(self, verb, rest):
        if verb in ("tc", "sh"):
            return [f"run {'tc ' if verb == 'tc' else ''}{rest.replace('$SAVE', f'{self.file}.json')}"]
        if verb == "save":
            return ["dump 7", f"run {self.programs.save(f'{self.file}.json')}"]
        if verb == "terse":
            show = self.programs.show(f"{self.file}.stream", f"{self.file}.json")
            dump = f"send {RTM_GETTFILTER} {DUMP} {(tc_header(7, 0, INGRESS, 0) + TERSE).hex()}"
            return [f"into {self.file}.stream", dump, "into /dev/null", f"run {show}"]
        if verb == "there":
            return ["dump 7"]
        if verb == "clear":
            return [f"run {self.programs.clear()}"]
        if verb == "restore":
            self.count += 1
            _, _, options = rest.partition(" ")
            own = f"{self.file}.{self.count}"
            restore = self.programs.restore(f"{self.file}.json", f"{own}.state", options)
            return [f"run ip -o link > {own}.names", "dump 7", f"watch {own}.sent", f"run {restore}", "unwatch", "dump 7"]
        if verb == "apply":
            self.count += 1
            return ["dump 7", f"run {self.programs.apply(f'{self.file}.json', f'{self.file}.{self.count}.state')}", "dump 7"]
        if verb == "shows":
            return [f"run tc {rest.rpartition(': tc ')[2]}"]
        return []

    def judge(self, answers):
        """Goes through the steps with the answers; the first that is otherwise ends it. Returns what is wrong, "" for nothing."""
        self.answers, self.count = iter(answers), 0
        for step in self.case.steps:
            try:
                wrong = getattr(self, f"judge_{step[0]}")(step[1] if len(step) > 1 else "")
            except StopIteration:
                wrong = "no answer"
            if wrong:
                return f"{' '.join(step)}: {wrong}"
        return ""

    def state(self):
        return State(self.names, next(self.answers).got)

    def ended(self, wanted=Said(0, [])):
        said = next(self.answers)
        return "" if said == wanted else f"{said}"

    def judge_tc(self, rest):
        return self.ended()

    judge_sh = judge_clear = judge_tc

    def judge_save(self, rest):
        self.saved = self.state()
        return self.ended()

    def judge_terse(self, rest):
        next(self.answers)
        return self.ended()

    def judge_restore(self, rest):
        self.count += 1
        next(self.answers)
        self.before, self.said, self.after = self.state(), next(self.answers), self.state()
        if str(self.said.status) != rest.split()[0]:
            return f"{self.said}"
        if self.said.status:
            return ""
        own = f"{self.file}.{self.count}"
        with open(f"{own}.sent", "rb") as file:
            return judged(self.programs, f"{self.file}.json", f"{own}.state", file.read(), rest, f"{own}.names", has_others(self.case))

    def judge_apply(self, rest):
        self.before, self.said, self.after = self.state(), next(self.answers), self.state()
        return "" if str(self.said.status) == rest else f"{self.said}"

    def judge_says(self, rest):
        return "" if any(re.fullmatch(rest, it) for it in self.said.lines) else f"it says {self.said.lines}"

    def judge_quiet(self, rest):
        return "" if not self.said.lines else f"it says {self.said.lines}"

    def judge_same(self, rest):
        return "; ".join(self.saved.differences(self.after)[:4])

    def judge_there(self, rest):
        return "; ".join(self.saved.differences(self.state())[:4])

    def judge_unchanged(self, rest):
        return "; ".join(self.before.differences(self.after)[:4])

    def judge_shows(self, rest):
        pattern, said = rest.rpartition(": tc ")[0], next(self.answers)
        text = "\n".join(said.lines)
        return "" if re.fullmatch(pattern, text) else f"it shows {text!r}"


class Cases:
    """All cases, in one guest."""

    def __init__(self, programs):
        self.guest = Guest("cases")
        names = Names(f"{HERE}/sent.txt")
        self.runs = [Run(case, self.guest, programs, names) for case in read_cases()]

    def judge(self):
        """Says which cases ended otherwise, and how many ended as they should."""
        good = 0
        for run in self.runs:
            wrong = run.judge(self.guest.answers.get(run.number, []))
            good += not wrong
            if wrong:
                fail(f"case {run.case.name} ({run.case.about}): {wrong}")
        return f"{good} of {len(self.runs)} cases restored as they say"
