"""The cases of the script `applied`: how they run in the guest, and whether each ends as it has to."""

import re
import subprocess

from guests import HERE, Guest, fail

SCRIPT = f"{HERE}/applied"


def listed(word):
    return subprocess.run([SCRIPT, word], capture_output=True, text=True, check=True).stdout.split()


class Applied:
    """Its cases, in one guest: all, or those that end right by now."""

    def __init__(self, programs, only_right=False):
        self.guest, self.wrong_yet = Guest("applied"), listed("--wrong")
        names = [it for it in listed("--list") if not (only_right and it in self.wrong_yet)]
        self.runs = {it: self.guest.add([], [f"TOOLS={programs.folder} {SCRIPT} --here {it}"]) for it in names}

    def judge(self):
        """Says which cases ended otherwise than the script says, and how many were right."""
        right = 0
        for name, number in self.runs.items():
            said = next(iter(self.guest.answers.get(number, [])), None)
            lines = said.lines if said else ["no answer"]
            is_right = bool(said) and said.status == 0 and lines[-1:] == [f"right {name}"]
            right += is_right
            if is_right and name in self.wrong_yet:
                fail(f"applied {name}: it is right, and in WRONG of kernel/applied: take it out there")
            elif not is_right and name not in self.wrong_yet or not re.match(r"(right|wrong) ", lines[0]):
                fail(f"applied {name}: {'; '.join(it.strip() for it in lines)}")
        return f"{right} of {len(self.runs)} small cases right, {len(self.runs) - right} not yet"
