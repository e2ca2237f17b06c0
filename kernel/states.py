"""What a link has, by its dumps, in a form that is the same for all dumps of one configuration; and what of it can't be made
again."""

import collections
import struct

from messages import mode_of, shown

QDISC, CLASS, FILTER, CHAIN, ACTIONS = 36, 40, 44, 100, (48, 49, 50)  # message types; a dump of actions is RTM_GETACTION
ROOT_OF_U32 = 46  # RTM_GETTFILTER: the answer to a question for the root table of a priority

# Attributes of a message and of an action that say what was counted, or are padding.
COUNTED = {3, 4, 6, 7, 9}  # TCA_STATS, TCA_XSTATS, TCA_FCNT, TCA_STATS2, TCA_PAD
COUNTED_OF_ACTION = {4, 5, 9, 10}  # TCA_ACT_STATS, TCA_ACT_PAD, TCA_ACT_USED_HW_STATS, TCA_ACT_IN_HW_COUNT

# Of each kind of filter, the attribute with its actions. Of each kind, that of padding, which is there or not by the place in the dump. Of an
# action, that of its times (struct tcf_t), 1 for those not named here.
ACTIONS_OF = {"basic": 3, "bpf": 1, "cgroup": 1, "flow": 9, "flower": 3, "fw": 4, "matchall": 2, "route": 6, "u32": 7}
PAD_OF = {"basic": 6, "matchall": 5, "u32": 12, "htb": 8, "tbf": 8, "netem": 9, "cake": 1, "taprio": 6}
TIMES_OF = {"connmark": 2, "csum": 2, "ct": 2, "ctinfo": 2, "ife": 2, "nat": 2, "police": 6}

# Of each kind of action, the attributes that begin with its number and counts, 2 for those not named here; and the places
# of number, refcnt and bindcnt in it: those of tc_gen, and those of tc_police.
PARMS_OF = {"connmark": [1], "csum": [1], "ct": [1], "ctinfo": [3], "ife": [1], "nat": [1], "pedit": [2, 4], "police": [1]}
COUNTS, COUNTS_OF_POLICE = (0, 12, 16), (0, 44, 48)

HEAD_OF = {"netem": 24}  # the bytes of a record before the attributes of its options (struct tc_netem_qopt)

ROOT_TABLE, TABLE = 0x80000000, 0xFFF00000  # the first of u32's root tables, which the kernel numbers as it makes priorities; a table in a handle
IN_ORDER = {"basic", "bpf", "flow"}  # of these filters the order within a priority counts; others are found by their handle

Action = collections.namedtuple("Action", "kind number held bound config has_estimator")


def attributes(data):
    """Type and payload of each attribute."""
    out, at = [], 0
    while at + 4 <= len(data):
        length, type_ = struct.unpack_from("<HH", data, at)
        if length < 4:
            break
        out.append((type_ & 0x3FFF, data[at + 4 : at + length]))
        at += length + -length % 4
    return out


def options_of(kind, data):
    """The attributes of options, with what is before them as attribute 0; all of it as attribute 0 if it isn't attributes."""
    head = HEAD_OF.get(kind, 0)
    found = attributes(data[head:])
    is_whole = sum(4 + len(it) + -len(it) % 4 for _, it in found) == len(data) - head
    return [(0, data[:head]), *found] if is_whole else [(0, data)]


def text(data):
    return data.removesuffix(b"\0").decode(errors="replace")


def handle(number):
    """A handle as tc writes it."""
    major, minor = number >> 16, number & 0xFFFF
    return "root" if number == 0xFFFFFFFF else f"{major:x}:{minor:x}" if minor else f"{major:x}:"


def action_of(data):
    """An action: its number is 0 in its configuration if only its filter holds it, since the kernel chose it."""
    own = dict(attributes(data))
    kind, options, places = text(own[1]), [], COUNTS
    number = held = bound = 0
    if kind == "police":
        places = COUNTS_OF_POLICE
    for type_, payload in attributes(own.get(2, b"")):
        if type_ in PARMS_OF.get(kind, [2]):
            number, held, bound = (int.from_bytes(payload[at : at + 4], "little") for at in places)
            if (held, bound) == (1, 1):
                payload = bytes(4) + payload[4:]
            payload = payload[: places[1]] + bytes(4) + payload[places[1] + 4 :]  # refcnt counts its own request too
            payload = payload[: places[2]] + bytes(4) + payload[places[2] + 4 :]
        if type_ != TIMES_OF.get(kind, 1) and payload:
            options.append((type_, payload))
    others = [it for it in attributes(data) if it[0] not in COUNTED_OF_ACTION and it[0] != 2]
    return Action(kind, number, held, bound, (tuple(others), tuple(options)), has_estimator(own.get(4, b"")))


def has_estimator(statistics):
    return any(type_ in (2, 5) for type_, _ in attributes(statistics))  # TCA_STATS_RATE_EST, TCA_STATS_RATE_EST64


class Object:
    """A message of a dump: its place, and its configuration in the normal form."""

    def __init__(self, type_, data):
        self.type, self.data = type_, data
        self.index, self.handle, self.parent, self.info = struct.unpack_from("<iIII", data, 4)
        self.own = dict(attributes(data[20:]))
        self.kind = text(self.own.get(1, b""))
        self.chain = int.from_bytes(self.own.get(11, b""), "little")
        self.options = options_of(self.kind, self.own.get(2, b""))
        self.actions = []
        if type_ == FILTER:
            lists = [it for number, it in self.options if number == ACTIONS_OF.get(self.kind)]
            self.actions = [action_of(it) for some in lists for _, it in attributes(some)]

    def block(self):
        return self.index, self.parent, self.chain

    def place_of_tables(self):
        """A priority of u32; and what has the tables that the kernel shows with it: the qdisc or the shared block, and the number."""
        place = self.index, self.parent, self.info, self.chain
        return place, (self.index, self.parent if self.index == -1 else self.parent & 0xFFFF0000, self.info >> 16)

    def is_root_table(self):
        divisor = int.from_bytes(dict(self.options).get(4, b""), "little")
        return self.kind == "u32" and self.handle >= ROOT_TABLE and self.handle & 0xFFFFF == 0 and divisor == 1

    def place(self):
        if self.type == QDISC:
            return f"qdisc of {self.index}, parent {handle(self.parent)}"
        if self.type == CLASS:
            return f"class of {self.index}, {handle(self.handle)}"
        where = f"of {self.index}, parent {handle(self.parent)}, chain {self.chain}"
        if self.type == CHAIN:
            return f"chain {where}"
        return f"filter {where}, priority {self.info >> 16}, handle {self.handle:x}"

    def config(self, counts_filters=True):
        """All that it has, in a form that can be compared; with the number of filters that hold each of its actions, if that counts."""
        options = tuple(it for it in self.options if it[0] not in (PAD_OF.get(self.kind), ACTIONS_OF.get(self.kind) if self.actions else None))
        if self.kind == "u32":  # police of the filter itself, with its times
            options = tuple((n, tuple(y for y in attributes(x) if y[0] != TIMES_OF["police"]) if n == 6 else x) for n, x in options)
        others = tuple(it for it in sorted(self.own.items()) if it[0] not in COUNTED | {2})
        info = 0 if self.type == QDISC else self.info  # of a qdisc a count of references
        actions = tuple((it.config, counts_filters and it.bound) for it in self.actions)
        return self.type, self.index, self.handle, self.parent, info, others, options, actions


def root_tables(objects, asked):
    """The root table of each priority of u32: as the kernel says, or the only one that can be it."""
    roots = collections.defaultdict(list)
    for it in objects:
        if it.type == FILTER and it.is_root_table():
            roots[it.place_of_tables()[0]].append(it.handle)
    return {place: asked.get(place, set(some).pop() if len(set(some)) == 1 else None) for place, some in roots.items()}


def own_tables(objects, asked):
    """Leaves out tables of u32 and their keys that belong elsewhere below their qdisc. One that is no root belongs to all: it stays in the first place."""
    roots, first = root_tables(objects, asked), {}
    tables = [it for it in objects if it.type == FILTER and it.kind == "u32" and it.handle]
    for it in tables:
        place, group = it.place_of_tables()
        first[group, it.handle & TABLE] = min(place, first.get((group, it.handle & TABLE), place))
    group_of = {it.place_of_tables()[0]: it.place_of_tables()[1] for it in tables}
    first.update({(group_of[place], root): place for place, root in roots.items()})
    is_own = lambda place, group, table: first[group, table] == place
    own = {id(it) for it in tables if is_own(*it.place_of_tables(), it.handle & TABLE)}
    return [it for it in objects if it.type != FILTER or it.kind != "u32" or not it.handle or id(it) in own], roots


def without_empty(objects, roots):
    """Leaves out priorities of u32 without a filter in their root table, and chains without a template that have only such ones: nothing is matched there,
    and no request makes one."""
    root_of = lambda it: roots.get(it.place_of_tables()[0])
    filled = {it.place_of_tables()[0] for it in objects if it.type == FILTER and it.handle & 0xFFFFF and it.handle & TABLE == root_of(it)}
    is_empty = lambda it: it.type == FILTER and it.kind == "u32" and it.handle in (0, root_of(it)) and it.place_of_tables()[0] not in filled
    left = [it for it in objects if not is_empty(it)]
    emptied = {it.block() for it in objects if is_empty(it)} - {it.block() for it in left if it.type == FILTER}
    return [it for it in left if it.type != CHAIN or it.kind or it.block() not in emptied]


def by_places(objects):
    """Renumbers qdiscs whose handles the kernel chose (8000: and above) by their places."""
    is_chosen = lambda number: 0x8000 <= number >> 16 < 0xFFFF
    left, numbers = [it for it in objects if it.type == QDISC and is_chosen(it.handle)], {}
    moved = lambda it, number: numbers.get((it.index, number >> 16), number >> 16) << 16 | number & 0xFFFF
    while left:
        ready = [it for it in left if (it.index, it.parent >> 16 << 16) not in {(other.index, other.handle) for other in left}] or left
        for it in sorted(ready, key=lambda it: (it.index, moved(it, it.parent))):
            numbers[it.index, it.handle >> 16] = 0x8000 + len(numbers)
        left = [it for it in left if it not in ready]
    for it in objects:
        if it.type in (QDISC, CLASS):
            it.handle = moved(it, it.handle)
        if it.type == CLASS:
            it.info = moved(it, it.info)
        if it.index != -1:
            it.parent = moved(it, it.parent)
    return objects


def renumbered(objects, asked=None, chosen=True):
    """Renumbers the root table of each priority of u32 to 800:, gives filters below ingress one parent, since the kernel dumps them with that of
    the last request, and renumbers handles that the kernel chose, if that is asked for."""
    ingress = {it.index for it in objects if it.type == QDISC and it.kind == "ingress"}
    objects, roots = own_tables(objects, asked or {})
    objects = without_empty(objects, roots)
    for it in objects:
        own = roots.get(it.place_of_tables()[0])
        if it.type == FILTER and it.kind == "u32" and own is not None:
            turned = lambda number: number & 0xFFFFF | ROOT_TABLE if number & TABLE == own else number
            it.handle = turned(it.handle)
            tables = {2, 3}  # TCA_U32_HASH, TCA_U32_LINK
            it.options = [(n, turned(int.from_bytes(x, "little")).to_bytes(4, "little") if n in tables else x) for n, x in it.options]
    for it in objects:
        if it.type in (FILTER, CHAIN) and it.index in ingress and it.parent >> 16 == 0xFFFF:
            it.parent = 0xFFFFFFF2
    return by_places(objects) if chosen else objects


# TCA_FLOWER_FLAGS, TCA_U32_FLAGS, TCA_MATCHALL_FLAGS and TCA_BPF_FLAGS_GEN.
FLAGS = {"flower": 22, "u32": 11, "matchall": 3, "bpf": 9}


def as_used(message):
    """A dump in which a class of htb with children has no quantum and no priority: the kernel uses neither, and a change doesn't set them."""
    type_, data = message
    if type_ == CLASS and text(dict(attributes(data[20:])).get(1, b"")) == "htb":
        parms = dict(attributes(dict(attributes(data[20:])).get(2, b""))).get(1, b"")
        if parms[36:40] != bytes(4):
            return type_, data.replace(parms, parms[:32] + bytes(4) + parms[36:40] + bytes(4) + parms[44:])
    return message


def has_offload_flag(filter):
    """True for a filter with skip_hw (1) or skip_sw (2)."""
    word = dict(filter.options).get(FLAGS.get(filter.kind), b"")
    return bool(int.from_bytes(word[:4], "little") & 3)


def roots_asked(messages):
    """The root table of each priority of u32, as the kernel says."""
    return {it.place_of_tables()[0]: it.handle for it in (Object(*it) for it in messages if it[0] == ROOT_OF_U32)}


def objects_in(messages):
    """The objects of dumps."""
    return [Object(*it) for it in messages if it[0] in (QDISC, CLASS, FILTER, CHAIN)]


def actions_in(messages):
    """The actions of dumps of actions."""
    lists = [some for type_, data in messages if type_ in ACTIONS for number, some in attributes(data[4:]) if number == 1]
    return [action_of(it) for some in lists for _, it in attributes(some)]


# Kinds whose classes have nothing after the qdisc there is deleted, so that packets are dropped: for these it counts whether there is a default qdisc.
LEAVES_NOTHING = ("tbf", "sfb", "red", "multiq", "mq", "mqprio", "taprio")


def without_defaults(objects, but_in=LEAVES_NOTHING):
    """Leaves out qdiscs that the kernel made itself, of which it shows some, but in qdiscs of these kinds."""
    kinds = {(it.index, it.handle >> 16): it.kind for it in objects if it.type == QDISC}
    return [it for it in objects if it.type != QDISC or it.handle or kinds.get((it.index, it.parent >> 16)) in but_in]


class State:
    """What dumps show: objects by their places, in the order in which that counts; and actions that more than one filter
    holds, or none."""

    def __init__(self, names, messages, defaults_in=LEAVES_NOTHING):
        self.names = names
        self.objects = without_defaults(renumbered(objects_in(messages), roots_asked(messages)), defaults_in)
        self.actions = actions_in(messages)
        self.places = collections.OrderedDict((it.place(), it) for it in self.objects)
        self.shared = {(it.kind, it.number): it for it in self.actions if (it.held, it.bound) != (1, 1)}

    def kinds(self):
        """The kinds of all that is there, each with its sort."""
        sorts = {QDISC: "qdisc", CLASS: "class", FILTER: "filter", CHAIN: "template"}
        own = {(sorts[it.type], it.kind) for it in self.objects if it.kind}
        return own | {("action", it.kind) for it in self.all_actions()}

    def all_actions(self):
        return [action for it in self.objects for action in it.actions] + list(self.shared.values())

    def ranks(self):
        """The filters of each priority, where their order counts."""
        out = collections.defaultdict(list)
        for it in self.objects:
            if it.type == FILTER and it.kind in IN_ORDER and it.handle:
                out[it.block(), it.info].append(it.handle)
        return out

    def differences(self, other, counts_filters=True):
        """What is otherwise in another state, in words. Filters of other interfaces hold actions too, if `counts_filters` is false."""
        out = []
        for place in dict.fromkeys([*self.places, *other.places]):
            one, two = self.places.get(place), other.places.get(place)
            if not two:
                out.append(f"{place}: {one.kind} is gone")
            elif not one:
                out.append(f"{place}: {two.kind} is new")
            elif one.config(counts_filters) != two.config(counts_filters):
                out.append(f"{place}: {self.changes(one, two)}")
        for key in dict.fromkeys([*self.shared, *other.shared]):
            one, two = self.shared.get(key), other.shared.get(key)
            if not one or not two or one.config != two.config or counts_filters and one.bound != two.bound:
                what = "is gone" if not two else "is new" if not one else f"{one} → {two}"
                out.append(f"action {key[0]} {key[1]}: {what}")
        one, two = self.ranks(), other.ranks()
        out += [f"filters of {key}: in another order" for key in one if one[key] != two[key] and set(one[key]) == set(two[key])]
        return out

    def changes(self, one, two):
        a, b = [shown(self.names, mode_of(it.type), it.data) for it in (one, two)]
        changed = [it for it in dict.fromkeys([*a, *b]) if a.get(it) != b.get(it) and "Stats" not in it]
        return "; ".join(f"{it} {a.get(it, 'none')} → {b.get(it, 'none')}" for it in changed[:5]) or "changed"

    def cannot_be_made(self):
        """What kernel/requests.md lists as not made, by what tcmake says of it."""
        out = set()
        for it in self.objects:
            if it.type == QDISC and it.kind in ("red", "choke", "gred"):
                out.add("table of red, choke or gred, which isn't dumped")
            if 8 in it.own:
                out.add("size table without its data")
            if has_estimator(it.own.get(7, b"")):
                out.add("estimator, of which only statistics are dumped")
            if it.type == FILTER and it.kind == "bpf" and 11 in dict(it.options):
                out.add("eBPF program by its number")
            if it.type == FILTER and it.kind == "u32" and 6 in dict(it.options):
                out.add("police of a filter, without its rate table")
            if it.type == FILTER and has_offload_flag(it) and any(action.held == action.bound >= 2 for action in it.actions):
                out.add("shared by filters of which one has an offload flag")
        for it in self.all_actions():
            if it.has_estimator:
                out.add("estimator, of which only statistics are dumped")
        roots = collections.Counter(it.place_of_tables()[0] for it in self.objects if it.type == FILTER and it.is_root_table())
        if any(count > 1 for count in roots.values()):
            out.add("two root tables of u32 in one priority")
        return out
