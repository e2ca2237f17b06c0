"""Random interfaces, saved, cleared and restored: in place, and where nothing is and other actions have taken the numbers."""

import collections

from generate import interfaces
from guests import HERE, Guest, Said, fail
from messages import Names
from states import State
from streams import judged

OF_A_GUEST = 20  # interfaces

# The actions of the interface are deleted, and another one has actions with the numbers that the kernel chooses first.
KINDS = "bpf connmark csum ct ctinfo gact ife mirred mpls nat pedit police sample simple skbedit skbmod tunnel_key vlan"
FLUSH = "".join(f"actions flush action {it}\n" for it in KINDS.split())
OTHERS = """qdisc add dev d9 clsact
filter add dev d9 ingress prio 1 matchall action gact drop action mirred egress redirect dev d8 action skbedit mark 99
filter add dev d9 ingress prio 2 matchall action police rate 99mbit burst 99k conform-exceed pass action nat ingress 9.9.9.9/32 9.9.9.8
filter add dev d9 ingress prio 3 matchall action vlan push id 99 action csum udp action pedit ex munge ip ttl set 99 action simple sdata "d9"
filter add dev d9 ingress prio 4 matchall action gact reclassify action tunnel_key unset action mpls dec_ttl action skbmod set etype 0x999
"""


class Trial:
    """An interface in a guest: set up and saved, restored in place, then cleared with all actions and restored."""

    def __init__(self, number, commands, guest, programs, names):
        self.number, self.commands, self.names, self.programs = number, commands, names, programs
        self.file = f"{guest.folder}/{number}"
        with open(f"{self.file}.tc", "w") as file:
            file.writelines(f"{it}\n" for it in commands)
        restore = lambda name, options: [
            f"watch {self.file}.{name}",
            f"run {programs.restore(f'{self.file}.json', f'{self.file}.{name}.state', options)}",
            "unwatch",
            "dump 7",
        ]
        self.lines = [
            *[f"link {it} 4" for it in (7, 8, 9)],
            f"run tc -force -batch {self.file}.tc > {self.file}.said 2>&1 || true",
            "dump 7",
            f"run {programs.save(f'{self.file}.json')}",
            *restore("here", "--clear"),
            f"run {programs.clear()} && (tc -force -batch {guest.folder}/others > /dev/null 2>&1 || true)",
            *restore("there", ""),
        ]
        self.try_number = guest.add_lines(self.lines)

    def judge(self, answers):
        """Returns what is wrong, "" for nothing."""
        self.said, self.unmade = [], set()
        if len(answers) != 8:
            return "no whole answer"
        _, before, saved, here, after, cleared, there, again = answers
        if any(it != Said(0, []) for it in (saved, cleared)):
            return f"not saved or not cleared: {[it for it in (saved, cleared) if it != Said(0, [])]}"
        self.before = State(self.names, before.got)
        self.unmade = self.before.cannot_be_made()
        return self.judge_one("in place", "here", here, State(self.names, after.got), self.before) or self.judge_one(
            "where nothing is", "there", there, State(self.names, again.got), State(self.names, [])
        )

    def judge_one(self, where, name, said, after, untouched):
        """A restore: the state is that which was saved; or something that can't be made is named, and nothing was done."""
        with open(f"{self.file}.{name}", "rb") as file:
            sent = file.read()
        if said.status == 0 and not self.unmade:
            wrong = self.before.differences(after)
            if wrong:
                return f"{where}: restored otherwise: {'; '.join(wrong[:4])}"
            options, has_others = "--clear" if name == "here" else "", any(" dev d8 ingress_block" in it for it in self.commands)
            return judged(self.programs, f"{self.file}.json", f"{self.file}.{name}.state", sent, options, has_others=has_others)
        if said.status == 0:
            return f"{where}: restored, though it has {', '.join(self.unmade)}"
        named = {why for why in self.unmade if any(why in it for it in said.lines)}
        if said.status != 1 or not named:
            return f"{where}: status {said.status}: {said.lines[:4]}"
        wrong = [it for it in untouched.differences(after) if not it.startswith("action")]
        return f"{where}: not restored, and changed: {'; '.join(wrong[:4])}" if wrong else ""


class Interfaces:
    """Random interfaces in as many guests as it takes."""

    def __init__(self, programs, seed, count, numbers=()):
        self.seed, self.guests, self.trials = seed, [], []
        names = Names(f"{HERE}/sent.txt")
        for number, commands in enumerate(interfaces(seed, count)):
            if numbers and number not in numbers:
                continue
            if len(self.trials) % OF_A_GUEST == 0:
                self.guests.append(self.guest(number))
            self.trials.append((Trial(number, commands, self.guests[-1], programs, names), self.guests[-1]))

    def guest(self, number):
        guest = Guest(f"random.{number}")
        with open(f"{guest.folder}/others", "w") as file:
            file.write(FLUSH + OTHERS)
        return guest

    def judge(self):
        good, named, objects, kinds = 0, 0, 0, collections.Counter()
        for trial, guest in self.trials:
            wrong = trial.judge(guest.answers.get(trial.try_number, []))
            if wrong:
                fail(f"random interface {trial.number} of seed {self.seed} ({trial.file}.tc): {wrong}")
                continue
            good, named = good + 1, named + bool(trial.unmade)
            objects += len(trial.before.places)
            kinds.update(trial.before.kinds())
        self.kinds = kinds
        return f"{good} of {len(self.trials)} random interfaces ({named} named as not restorable), {objects} objects of {len(kinds)} kinds"
