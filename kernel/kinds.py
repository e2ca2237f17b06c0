"""Each kind that a kernel has: made by tc, shown, saved and restored where nothing is, and changed in place. The results of a kernel are the lines of a file in
results/, of which `table` makes the table kind × kernel."""

import collections
import glob
import json
import os
import re

from changes import CHANGED, filter_of
from generate import ACTIONS, ALL_QDISCS, CLASSES, FILTERS, QDISCS
from guests import HERE, Guest, Said, chosen, fail
from interfaces import FLUSH
from messages import Names
from states import State, as_used

RESULTS = f"{HERE}/results"
OF_A_KIND = 2  # states of a kind
OF_A_GUEST = 40  # kinds

# What generate.py hasn't, since User Mode Linux lacks it or since it can't be made again.
MORE_QDISCS = {
    "ets": ["bands 4 strict 2 quanta 3000 1500", "bands 3 quanta 3000 2000 1000"],
    "fq_pie": ["", "limit 500 flows 512 target 20ms"],
    "red": ["limit 100kb avpkt 1000 bandwidth 10mbit", "limit 200kb avpkt 1000 bandwidth 10mbit ecn"],
    "choke": ["limit 100 bandwidth 10mbit ecn", "limit 200 bandwidth 10mbit"],
    "gred": ["setup DPs 3 default 2 grio", "setup DPs 2 default 1"],
    "dualpi2": ["", ""],
    "cake_mq": ["", ""],
    "cbq": ["bandwidth 10mbit avpkt 1000"],
    "dsmark": ["indices 8"],
    "atm": [""],
}
MORE_ACTIONS = {"gate": ["clockid CLOCK_TAI sched-entry open 1000000 -1 -1", "clockid CLOCK_TAI sched-entry close 2000000 -1 -1 sched-entry open 1000000 -1 -1"]}
MORE_ACTIONS["xt"] = [f"-j MARK --set-mark {it}" for it in (2, 3)]
MORE_FILTERS = {
    "cgroup": [("all", ""), ("all", "action gact drop")],  # with `match` tc takes no command
    "rsvp": [("ip", f"session 10.0.0.{it} ipproto tcp") for it in (1, 2)],
    "rsvp6": [("ipv6", f"session fe80::{it} ipproto tcp") for it in (1, 2)],
    "tcindex": [("ip", f"mask 7 shift {it}") for it in (2, 1)],
}
# Classes whose qdisc takes options, with these; some are there with the qdisc.
MORE_CLASSES = {
    "ets": ("bands 3 quanta 3000 2000 1000", [f"change dev d7 classid 1:1 ets quantum {it}" for it in (4000, 5000)]),
    "cbq": ("bandwidth 10mbit avpkt 1000", [f"add dev d7 parent 1: classid 1:1 cbq bandwidth 10mbit rate {it} allot 1514 prio 5 avpkt 1000" for it in ("1mbit", "2mbit")]),
    "dsmark": ("indices 8", [f"change dev d7 classid 1:1 dsmark mask 0x3 value {it}" for it in ("0xb8", "0x68")]),
}

# No tc of Debian has these kinds' words, and makes them without: their second state is the save of the first with this edit (what by what), as tcrestore makes it.
EDITED = {"qdisc dualpi2": ('"Limit":10000', '"Limit":5000'), "qdisc cake_mq": ('"BaseRate64":0', '"BaseRate64":1250000')}

# What the kernel, or tc, says of a kind that it doesn't have.
LACKED = r"qdisc kind is unknown|TC classifier not found|Failed to load TC action module|Unknown (qdisc|filter|action)"

# What became of a state: an empty text, or why not.
Row = collections.namedtuple("Row", "kind made shown restored changed")


def states_of():
    """Of each kind its states, each as commands of tc."""
    for kind, some in {**ALL_QDISCS, **MORE_QDISCS}.items():
        yield f"qdisc {kind}", [[f"qdisc add dev d7 root handle 1: {kind} {it}"] for it in some]
    for kind in ("clsact", "ingress"):
        yield f"qdisc {kind}", [[f"qdisc add dev d7 {kind}"]]
    for kind, some in CLASSES.items():
        yield f"class {kind}", [[f"qdisc add dev d7 root handle 1: {kind}", f"class add dev d7 parent 1: classid 1:1 {kind} {it}"] for it in some]
    for kind, (options, some) in MORE_CLASSES.items():
        yield f"class {kind}", [[f"qdisc add dev d7 root handle 1: {kind} {options}", f"class {it}"] for it in some]
    for kind, some in {**FILTERS, **MORE_FILTERS}.items():
        yield f"filter {kind}", [filter_of(kind, *it) for it in some]
    for kind, some in {**ACTIONS, **MORE_ACTIONS}.items():
        yield f"action {kind}", [[f"actions add action {kind} {it} index 7"] for it in some]


def is_unread(value):
    """Whether JSON has bytes that aren't read: of a form that doesn't fit, of an attribute or a kind without a table."""
    if isinstance(value, list):
        return any(map(is_unread, value))
    if isinstance(value, dict):
        return bool({"raw", "OptionsRaw"} & value.keys()) or isinstance(value.get("Other"), (str, dict)) or any(map(is_unread, value.values()))
    return False


class Kind:
    """A kind in a guest: its states, each made, saved and restored where nothing is; then each from the one before."""

    def __init__(self, name, states, guest, programs, names):
        self.name, self.guest, self.names, self.states = name, guest, names, states[:OF_A_KIND]
        self.file = f"{guest.folder}/{name.replace(' ', '.')}"
        clear = f"run {programs.clear()} && (tc -force -batch {guest.folder}/flush > /dev/null 2>&1 || true)"
        lines = [f"link {it} 4" for it in (7, 8, 9)]
        for number, commands in enumerate(self.states):
            own = f"{self.file}.{number}"
            with open(f"{own}.tc", "w") as batch:
                batch.writelines(f"{' '.join(it.split())}\n" for it in commands)
            restore = programs.restore(f"{own}.json", f"{self.file}.state")
            make = f"tc -batch {own}.tc"
            if number and name in EDITED:
                old, new = EDITED[name]
                edit = f"grep -q '{old}' {self.file}.0.json && sed 's/{old}/{new}/' {self.file}.0.json > {own}.edited"
                make = f"{edit} && {{ {programs.restore(f'{own}.edited', f'{self.file}.state')}; }}"
            lines += [f"run {make}", "dump 7", f"run {programs.save(f'{own}.json')}", clear, f"run {restore}", "dump 7", clear]
        for number in range(len(self.states)):
            lines += [f"run {programs.apply(f'{self.file}.{number}.json', f'{self.file}.state')}", "dump 7"]
        self.number = guest.add_lines(lines)

    def judge(self):
        """What became of the kind; what isn't as it should be and has no reason fails."""
        found, count = self.guest.answers.get(self.number, []), len(self.states)
        if len(found) != 9 * count:
            fail(f"{self.name} ({self.guest.folder}): no whole answer")
            return None
        made, shown, restored, fresh = [], [], [], []
        for number in range(count):
            tc, before, save, _, said, after, _ = found[7 * number : 7 * number + 7]
            fresh.append(State(self.names, list(map(as_used, before.got))))
            made.append("" if tc.status == 0 else "; ".join(tc.lines[:1]) or f"status {tc.status}")
            if made[-1]:
                continue
            shown.append(self.shown(number, save))
            restored.append(self.why_not(said, fresh[-1], after))
        if all(made):
            return Row(self.name, made[0], "", "", "")
        changed = self.changed(found[7 * count :], fresh) if not any([*made, *restored]) else "-"
        return Row(self.name, "", first(shown), first(restored), f"only in one state: {first(made)}" if any(made) else changed)

    def shown(self, number, save):
        if save != Said(0, []):
            return f"not saved: {'; '.join(save.lines[:1])}"
        with open(f"{self.file}.{number}.json") as file:
            lines = [json.loads(it) for it in file if it.startswith('{"type"')]
        return "raw" if any(is_unread(it["message"]) for it in lines) else ""

    def why_not(self, said, wanted, after):
        """Why something isn't restored: what tcrestore says; "" if it is there again."""
        if said.status:
            return said_why(said)
        wrong = wanted.differences(State(self.names, list(map(as_used, after.got))))
        return f"otherwise: {wrong[0]}" if wrong else ""

    def changed(self, found, fresh):
        """How many changes in place lead from each state to the next; or what is wrong."""
        count = 0
        for number, (said, after) in enumerate(zip(found[::2], found[1::2])):
            wrong = said_why(said) if said.status else "; ".join(fresh[number].differences(State(self.names, list(map(as_used, after.got))))[:1])
            if wrong:
                return wrong
            count += number > 0 and any(re.search(CHANGED, it) for it in said.lines)
        return "in place" if count else "anew" if len(fresh) > 1 else "-"


def has_module(kind):
    """Whether the kernel has the module of a kind."""
    sort, name = kind.split()
    return bool(glob.glob(f"{chosen().modules}/*/kernel/net/sched/{ {'filter': 'cls', 'action': 'act'}.get(sort, 'sch') }_{name}.ko"))


def first(some):
    return next((it for it in some if it), "")


def said_why(said):
    """What a program says of a line that can't be made, or else its last line."""
    lines = [re.sub(r"^tc\w+: (.*: line \d+: )?", "", it) for it in said.lines]
    return f"{next((it for it in lines if 'nothing is sent' not in it), 'nothing said')} (status {said.status})"


class Kinds:
    """All kinds, in guests of so many."""

    def __init__(self, programs, pattern=""):
        names, every = Names(f"{HERE}/sent.txt"), [it for it in states_of() if re.search(pattern, it[0])]
        self.guests, self.kinds = [], []
        for number, (name, states) in enumerate(every):
            if number % OF_A_GUEST == 0:
                self.guests.append(Guest(f"kinds.{number}"))
                with open(f"{self.guests[-1].folder}/flush", "w") as file:
                    file.write(FLUSH + "actions flush action gate\n")
            self.kinds.append(Kind(name, states, self.guests[-1], programs, names))

    def judge(self):
        """Says what isn't shown, restored or there as it should be, but for what `reasons.txt` has."""
        self.rows = [it for it in (kind.judge() for kind in self.kinds) if it]
        expected, own = reasons(), [it for it in self.rows if not re.search(LACKED, it.made) or has_module(it.kind)]
        excused = 0
        for row in own:
            for what, text in zip(Row._fields[1:], row[1:]):
                if text not in ("", "in place", "anew", "-"):
                    excused += 1
                    if not any(re.fullmatch(kind, row.kind) and re.search(pattern, text) for kind, pattern, _ in expected):
                        fail(f"{row.kind} on Linux {chosen().name}: {what}: {text}")
        return f"{len(own)} of {len(self.rows)} kinds are in this kernel, each shown, restored and changed, but for {excused} of which kernel/reasons.txt says why"

    def record(self, day):
        """Writes what was found; kinds that were not asked for keep what was found before."""
        os.makedirs(RESULTS, exist_ok=True)
        path = f"{RESULTS}/{chosen().name}.tsv"
        rows = {**{it.kind: it for it in (read(path) if os.path.exists(path) else [])}, **{it.kind: it for it in self.rows}}
        order = [name for name, _ in states_of()]
        with open(path, "w") as file:
            file.write(f"# Linux {chosen().name}, tc {chosen().tc}, {day}: {', '.join(Row._fields)}\n")
            file.writelines("\t".join(rows[it]) + "\n" for it in order if it in rows)


def read(path):
    """The rows of a kernel."""
    with open(path) as file:
        return [Row(*it.rstrip("\n").split("\t")) for it in file if it[0] != "#"]


def reasons():
    """The lines of reasons.txt: a pattern of kinds, one of what is said, and why."""
    with open(f"{HERE}/reasons.txt") as file:
        return [tuple(it.rstrip("\n").split("\t")) for it in file if it.strip() and it[0] != "#"]


# ---- The table


def cell(row):
    """A kind on a kernel in a word or two."""
    if row is None:
        return ""
    if re.search(LACKED, row.made):
        return "–"
    if row.made:
        return f"not made: {row.made}"
    if row.shown:
        return row.shown
    if row.restored:
        return f"not back: {re.sub(r' [(]status .*', '', row.restored)}"
    return {"in place": "back, in place", "anew": "back, anew", "-": "back"}.get(row.changed, f"back; {row.changed}")


def table():
    """The table of all kernels that were recorded: a row for each kind."""
    kernels, heads, known = [], [], {}
    for path in sorted(glob.glob(f"{RESULTS}/*.tsv"), key=lambda it: [int(n) for n in re.findall(r"\d+", os.path.basename(it))[:3]]):
        kernels.append(os.path.basename(path).removesuffix(".tsv"))
        with open(path) as file:
            heads.append(file.readline()[2:].partition(":")[0])
        for row in read(path):
            known.setdefault(row.kind, {})[kernels[-1]] = row
    yield f"| Kind | {' | '.join(heads)} |"
    yield "|---" * (len(kernels) + 1) + "|"
    for kind in [it for it, _ in states_of() if it in known]:
        yield f"| {kind} | {' | '.join(cell(known[kind].get(it)) for it in kernels)} |"
