"""Scripts of tc commands, plain ones and random ones: what `tcapply --dev d7 --dev d8 --dev d9 -- SCRIPT` leaves has to be what the script itself leaves."""

import collections
import re

from generate import interfaces
from guests import HERE, Guest, fail
from kinds import states_of
from messages import Names
from states import State, as_used

OF_A_GUEST = 30  # scripts
ENDED = "ended with exit status"  # what tcapply says of a script whose last command fails, as it does if the kernel or tc lacks its kind


class Script:
    """A script in a guest: run, and in another namespace applied."""

    def __init__(self, name, commands, guest, programs, names):
        self.name, self.guest, self.names = name, guest, names
        self.file = f"{guest.folder}/{name.replace(' ', '.')}.sh"
        with open(self.file, "w") as file:
            file.writelines(f"tc {it}\n" for it in (" ".join(own.split()) for own in commands))
        links = [f"link {it} 4" for it in (7, 8, 9)]
        self.plain = guest.add_lines([*links, f"run sh {self.file} > /dev/null", "dump 7,8,9"])
        apply = programs.applied(("d7", "d8", "d9"), f"sh {self.file}", f"{self.file}.state")
        self.applied = guest.add_lines([*links, f"run {apply}", "dump 7,8,9"])

    def judge(self):
        """How it ended: `same`, or why it was refused; "" if it fails."""
        plain, applied = [self.guest.answers.get(it, []) for it in (self.plain, self.applied)]
        if len(plain) != 2 or len(applied) != 2:
            fail(f"script {self.name} ({self.file}): no whole answer")
            return ""
        wanted, after = [State(self.names, list(map(as_used, it[1].got))) for it in (plain, applied)]
        said = applied[0]
        if plain[0].status and said.status == 1 and any(ENDED in it for it in said.lines) and not State(self.names, []).differences(after):
            return "refused as they end with an error"
        if said.status == 1 and wanted.cannot_be_made() and any(why in it for why in wanted.cannot_be_made() for it in said.lines):
            return "named as not to be made"
        wrong = f"{said}" if said.status else "; ".join(wanted.differences(after)[:4])
        if wrong:
            fail(f"script {self.name} ({self.file}): {wrong}")
        return "" if wrong else "same"


class Scripts:
    """The first state of each kind whose name has the pattern, and random interfaces of a seed."""

    def __init__(self, programs, seed, count, pattern=""):
        names, self.guests, self.scripts = Names(f"{HERE}/sent.txt"), [], []
        plain = [(kind, states[0]) for kind, states in states_of() if re.search(pattern, kind)]
        own = [(f"{number} of seed {seed}", commands) for number, commands in enumerate(interfaces(seed, count)) if commands]
        for number, (name, commands) in enumerate([*plain, *own]):
            if number % OF_A_GUEST == 0:
                self.guests.append(Guest(f"scripts.{number}"))
            self.scripts.append(Script(name, commands, self.guests[-1], programs, names))

    def judge(self):
        ends = collections.Counter(it.judge() for it in self.scripts)
        ends, same = {it: count for it, count in ends.items() if it}, ends["same"]
        others = [f", {count} {how}" for how, count in sorted(ends.items()) if how != "same"]
        return f"{same} of {len(self.scripts)} scripts applied as they run themselves{''.join(others)}"
