"""What a change leaves: tcapply leads each kind from each of some states to each other one, and what is there then has to be what is there if that
state is made where nothing is."""

import random
import re

from generate import ACTIONS, CLASSES, FILTERS, QDISCS
from guests import HERE, Guest, Said, fail
from interfaces import FLUSH
from messages import Names
from states import State, as_used

OF_A_KIND = 3  # states
PATH = (0, 1, 0, 2, 1, 2, 0)  # each ordered pair of them, after the way from nothing to the first
GUESTS = 2
CHANGED, NOT_MADE = r" [1-9]\d* changed,", "took a change and didn't make it"  # what tcapply says of a change in place, and of one that it sees not made
NUMBERED = ("basic", "fw", "flow", "cgroup", "bpf")  # filters to which tc gives no handle by itself


def filter_of(kind, protocol, keys):
    handle = "handle 7" if kind in NUMBERED else ""
    verdict = "" if kind in ("flow", "cgroup") else "classid 1:1"
    return ["qdisc add dev d7 clsact", f"filter add dev d7 egress prio 1 protocol {protocol} {handle} {kind} {keys} {verdict}"]


def kinds():
    """Of each kind its states, each as commands of tc."""
    for kind, some in QDISCS.items():
        yield f"qdisc {kind}", [[f"qdisc add dev d7 root handle 1: {kind} {it}"] for it in some]
    for kind, some in CLASSES.items():
        yield f"class {kind}", [[f"qdisc add dev d7 root handle 1: {kind}", f"class add dev d7 parent 1: classid 1:1 {kind} {it}"] for it in some]
    for kind, some in FILTERS.items():
        yield f"filter {kind}", [filter_of(kind, *it) for it in some]
    for kind, some in ACTIONS.items():
        yield f"action {kind}", [[f"actions add action {kind} {it} index 7"] for it in some]


class Walk:
    """The states of a kind in a guest, and the way from each to each other."""

    def __init__(self, name, states, guest, programs, names):
        self.name, self.guest, self.names = name, guest, names
        self.path = [it for it in PATH if it < len(states)]
        file = f"{guest.folder}/{name.replace(' ', '.')}"
        lines = [f"link {it} 4" for it in (7, 8, 9)]
        clear = f"run {programs.clear()} && (tc -force -batch {guest.folder}/flush > /dev/null 2>&1 || true)"
        for number, commands in enumerate(states):
            with open(f"{file}.{number}.tc", "w") as batch:
                batch.writelines(f"{' '.join(it.split())}\n" for it in commands)
            made = f"run tc -force -batch {file}.{number}.tc > /dev/null 2>&1 || true"
            lines += [made, "dump 7", f"run {programs.save(f'{file}.{number}.json')}", clear]
        for number in self.path:
            lines += [f"run {programs.apply(f'{file}.{number}.json', f'{file}.state')}", "dump 7"]
        self.count, self.number = len(states), guest.add_lines(lines)

    def state(self, answer):
        return State(self.names, list(map(as_used, answer.got)))

    def judge(self):
        """Returns what is wrong, "" for nothing. `named` is true if something can't be made again, and is named. `changed` counts ways with changes
        in place."""
        found, self.named, self.changed = self.guest.answers.get(self.number, []), False, 0
        if len(found) != 4 * self.count + 2 * len(self.path):
            return "no whole answer"
        fresh = [self.state(found[4 * it + 1]) for it in range(self.count)]
        unmade = set().union(*[it.cannot_be_made() for it in fresh])
        before = "nothing"
        for number, said, after in zip(self.path, found[4 * self.count :: 2], found[4 * self.count + 1 :: 2]):
            if said.status == 1 and any(why in it for why in unmade for it in said.lines):
                self.named = True
            elif said.status or any(NOT_MADE in it for it in said.lines):
                return f"from {before} to state {number}: {said}"
            else:
                self.changed += sum(bool(re.search(CHANGED, it)) for it in said.lines)
                wrong = fresh[number].differences(self.state(after))
                if wrong:
                    return f"from {before} to state {number}: {'; '.join(wrong[:4])}"
            before = f"state {number}"
        return ""


class Changes:
    """All kinds, in some guests."""

    def __init__(self, programs, seed):
        self.guests, names, chance = [Guest(f"changes.{it}") for it in range(GUESTS)], Names(f"{HERE}/sent.txt"), random.Random(seed)
        for guest in self.guests:
            with open(f"{guest.folder}/flush", "w") as file:
                file.write(FLUSH)
        self.walks = []
        for number, (name, states) in enumerate(kinds()):
            some = chance.sample(states, min(OF_A_KIND, len(states)))
            self.walks.append(Walk(name, some, self.guests[number % GUESTS], programs, names))

    def judge(self):
        good, named, ways, changed = 0, 0, 0, 0
        for walk in self.walks:
            wrong = walk.judge()
            if wrong:
                fail(f"{walk.name} ({walk.guest.folder}): {wrong}")
            good, named, ways, changed = good + (not wrong), named + walk.named, ways + len(walk.path), changed + walk.changed
        return f"{good} of {len(self.walks)} kinds ({named} named as not to be made) led from state to state in {ways} ways, {changed} with changes in place"
