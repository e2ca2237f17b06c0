"""Pairs of random interfaces: from what the one has to what the other has, by tcapply; killed before a random request and applied again; a random
request is refused, or SIGTERM comes while it is sent, so that it goes back; and by the plan's requests, with a look at what there is after each."""

import collections
import concurrent.futures
import random
import re
import shutil
import threading
import time

from generate import all_kinds, endless
from guests import HERE, Guest, Said, fail
from messages import Names
from states import LEAVES_NOTHING, State, as_used
from steps import judge as judge_steps
from streams import ALL, asked, requests_in

OF_A_GUEST = 50  # pairs
ALL_KINDS_IN = 200  # pairs
SILENCE = 300  # seconds
THERE = "what is there is what is wanted"  # notices of what no dump shows may follow
KILLED, CAME_BACK = 128 + 9, 5  # the status of a command that SIGKILL ends, and of tcapply if what there was is there again
LINKS = [f"link {it} 4" for it in (7, 8, 9)]
TC = shutil.which("tc", path="/usr/sbin:/usr/bin:/sbin:/bin") or "tc"


def least(command):
    """A command with numbers of u32's tables below 800:. Linux 6.1.176, and Linux from 6.13 on, doesn't free one above that when its table is deleted, so
    that it can't be made again while another priority of u32 is there (`ENOSPC`)."""
    return re.sub(r"\b(9|a)00:", lambda it: f"6{it[1]}0:", command).replace("ffe:", "6fe:")


def pairs(seed, count):
    """The commands of what there is and of what is wanted, which aren't the same, and the parts of a plan at which something goes wrong: each second
    time the wanted ones are most of those that there are, and some others."""
    chance, places, own = random.Random(seed), random.Random(f"stop {seed}"), ([least(it) for it in some] for some in endless(seed, comes_back=True))
    for number in range(count):
        before = wanted = []
        while len(set(before) ^ set(wanted)) < 1 + number % 2 * 4:
            before, wanted = next(own), next(own)
            if number % 2:
                wanted = [it for it in before if chance.random() < 0.8] + [it for it in wanted if chance.random() < 0.2]
        yield before, wanted, [f"{it.random():.3f}" for it in (chance, chance, places)]


class Pair:
    """A pair in a guest: its tries, each with the names of the steps that have an answer."""

    def __init__(self, number, pair, guest, programs, names):
        before, wanted, parts = pair
        self.number, self.guest, self.names, self.tries = number, guest, names, []
        # A block that d8 has too is one of both interfaces, which are one plan.
        links = [7, 8] if any("dev d8 ingress_block" in it for it in [*before, *wanted]) else [7]
        self.file = f"{guest.folder}/{number}"
        for name, own in (("before", before), ("wanted", wanted)):
            with open(f"{self.file}.{name}.tc", "w") as file:
                file.writelines(f"{it}\n" for it in own)
        save, state, sent = [f"{self.file}.{it}" for it in ("json", "state", "sent")]
        devs, numbers = [f"d{it}" for it in links], ",".join(map(str, links))
        saving, apply = programs.words("tcsave", *devs), programs.words("tcapply", "--state", state, save)
        stepping = programs.words("tcapply", "--compare-steps", "--state", state, save)
        dump, last = f"dump {numbers}", [("after", f"dump {numbers}"), ("plan", f"call - {programs.words('tcapply', '-n', save)}")]
        before = [("make_before", self.made("before")), ("before", dump)]
        self.add([("make_wanted", self.made("wanted")), ("wanted", dump), ("save", f"call {save} {saving}")])
        self.add([*before, ("", f"watch {sent}"), ("apply", f"call - {apply}"), ("", "unwatch"), *last])
        self.add([*before, ("cut", f"kill {sent} {parts[0]} {apply}"), ("apply", f"call - {apply}"), *last])
        self.add([*before, ("cut", f"spoil {sent} {parts[1]} {apply}"), last[0]])
        self.add([*before, ("cut", f"stop {sent} {parts[2]} {apply}"), last[0]])
        self.add([*before, ("steps", f"call - {stepping}"), last[0]])

    def made(self, name):
        return f"call /dev/null {TC} -force -batch {self.file}.{name}.tc"

    def add(self, steps):
        self.tries.append((self.guest.add_lines([*LINKS, *[line for _, line in steps]]), [name for name, _ in steps if name]))

    def answers(self):
        """The answers of each try, by their names; None if they aren't whole."""
        for number, names in self.tries:
            found = self.guest.answers.pop(number, [])
            yield dict(zip(names, found)) if len(found) == len(names) else None

    def judge(self):
        """Returns what is wrong, a text for each try; None if there is no whole answer."""
        tries = list(self.answers())
        if None in tries:
            return None
        self.sent, self.steps, self.ends, self.wanted = 0, collections.Counter(), [], tries[0]["wanted"]
        self.kinds = self.state(self.wanted).kinds() | self.state(tries[1]["before"]).kinds()
        ways = (self.judge_saved, self.judge_whole, self.judge_killed, self.judge_refused, self.judge_stopped, self.judge_stepped)
        return [f"{way.__name__[6:]}: {wrong}" for way, it in zip(ways, tries) for wrong in [way(it)] if wrong]

    def state(self, answer, defaults_in=LEAVES_NOTHING):
        return State(self.names, list(map(as_used, answer.got)), defaults_in)

    def unlike(self, wanted, after, counts_filters=True):
        """How a state differs from another, but for actions that nobody wants and that no filter holds."""
        found = wanted.differences(after, counts_filters)
        return "; ".join([it for it in found if not (it.startswith("action ") and it.endswith("is new"))][:4])

    def judge_saved(self, answers):
        return "" if answers["save"] == Said(0, []) else f"{answers['save']}"

    def judge_whole(self, answers):
        with open(f"{self.file}.sent", "rb") as file:
            self.sent = len(requests_in(asked(file.read()), ALL))
        return self.is_wanted(answers)

    def is_wanted(self, answers):
        """tcapply ended with 0, what there is is what is wanted, and a second plan is empty."""
        if answers["apply"].status:
            return f"{answers['apply']}"
        wrong, plan = self.unlike(self.state(self.wanted), self.state(answers["after"])), answers["plan"]
        if not wrong and (plan.status or plan.lines[:1] != [THERE]):
            wrong = f"a second plan: {plan}"
        return wrong

    def judge_killed(self, answers):
        if self.sent and answers["cut"].status != KILLED:
            return f"not killed: {answers['cut']}"
        self.ends += ["killed"] * bool(self.sent)
        return self.is_wanted(answers)

    def judge_refused(self, answers):
        return self.judge_back(answers, "refused")

    def judge_stopped(self, answers):
        return self.judge_back(answers, "stopped")

    def judge_back(self, answers, why):
        """What there was is there again."""
        if not self.sent:
            return ""
        if answers["cut"].status != CAME_BACK:
            return f"{answers['cut']}"
        self.ends.append(f"{why} and back")
        return self.unlike(self.state(answers["before"]), self.state(answers["after"]))

    def judge_stepped(self, answers):
        wrong, counts = judge_steps(answers["steps"])
        self.steps += counts
        return wrong or self.unlike(self.state(self.wanted), self.state(answers["after"]))


class Pairs:
    """Pairs in as many guests as it takes. Each guest's are judged when it ends."""

    def __init__(self, programs, seed, count, numbers=()):
        self.programs, self.seed, self.names = programs, seed, Names(f"{HERE}/sent.txt")
        self.left = [(number, pair) for number, pair in enumerate(pairs(seed, count)) if not numbers or number in numbers]
        self.count, self.asks_for_all = len(self.left), len(self.left) >= ALL_KINDS_IN
        self.judged, self.good, self.sent, self.lock = 0, 0, 0, threading.Lock()
        self.ends, self.steps, self.kinds = [collections.Counter() for _ in range(3)]

    def run(self, at_once):
        """Runs all of them, in so many guests at once."""
        batches = [self.left[at : at + OF_A_GUEST] for at in range(0, self.count, OF_A_GUEST)]
        with concurrent.futures.ThreadPoolExecutor(at_once) as pool:
            list(pool.map(self.run_batch, batches))

    def run_batch(self, batch):
        """Runs pairs in one guest, and those after one that has no whole answer in another."""
        while batch:
            guest = Guest(f"pairs.{batch[0][0]}")
            own = [Pair(number, pair, guest, self.programs, self.names) for number, pair in batch]
            guest.run(SILENCE)
            with self.lock:
                batch = batch[self.judge_guest(own) :]

    def judge_guest(self, own):
        """Judges the pairs of a guest up to one that has no whole answer. Returns how many."""
        began = time.monotonic()
        for count, pair in enumerate(own, 1):
            wrong = pair.judge()
            for it in ["no whole answer"] if wrong is None else wrong:
                fail(f"pair {pair.number} of seed {self.seed} ({pair.file}.before.tc, .wanted.tc): {it}")
            if wrong is None:
                break
            self.take(pair, not wrong)
        print(f"pairs {own[0].number} to {own[count - 1].number} judged in {time.monotonic() - began:.0f} s: {self.said()}", flush=True)
        return count

    def take(self, pair, is_good):
        self.judged, self.good, self.sent = self.judged + 1, self.good + is_good, self.sent + pair.sent
        self.ends.update(pair.ends)
        self.steps.update(pair.steps)
        self.kinds.update(pair.kinds)

    def said(self):
        ends, steps = [", ".join(f"{count} {what}" for what, count in sorted(some.items())) for some in (self.ends, self.steps)]
        return f"{self.good} of {self.judged} as wanted; {self.sent} requests, {ends}; looked at after each of {steps}"

    def judge(self):
        every = all_kinds()
        missing = [" ".join(it) for it in sorted(every - self.kinds.keys())]
        if missing and self.asks_for_all:
            fail(f"no pair has {', '.join(missing)}")
        elif missing:
            print(f"no pair has {', '.join(missing)}")
        return f"{self.good} of {self.count} pairs as wanted; {len(every) - len(missing)} of {len(every)} kinds; {self.said()}"
