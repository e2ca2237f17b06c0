"""What tcrestore sends: streams of requests, compared with the plan that tcmake makes of the same files."""

import collections
import glob
import json
import struct

from states import ACTIONS_OF, CHAIN, CLASS, COUNTED_OF_ACTION, FILTER, QDISC, TIMES_OF, Object, attributes, text

NEW = (QDISC, CLASS, FILTER, CHAIN, 48)  # 48 is RTM_NEWACTION
ALL = (*NEW, *[it + 1 for it in NEW])  # those that delete too
OF_BLOCK = -1  # TCM_IFINDEX_MAGIC_BLOCK

# What the sender of a stream adds to flags: NLM_F_REQUEST, NLM_F_ACK, NLM_F_ECHO
SENDERS = 0x1 | 0x4 | 0x8


def messages(data):
    """The messages of a netlink stream: type, flags, sequence number with port id, and the bytes after the header."""
    out, at = [], 0
    while at + 16 <= len(data):
        length, type_, flags, *number = struct.unpack_from("<IHHII", data, at)
        if length < 16:
            break
        out.append((type_, flags, tuple(number), data[at + 16 : at + length]))
        at += -(-length // 4) * 4
    return out


def stream_of(data):
    """The messages of a netlink stream, each a type and the bytes after its header."""
    return [(type_, payload) for type_, *_, payload in messages(data)]


def asked(data):
    """Of what a process and the kernel said to each other, what the process said: the first message of each number. The kernel's notifications of
    what it does without a request have port id 0."""
    first = {}
    for it in messages(data):
        first.setdefault(it[2], it)
    return [it for (_, port), it in first.items() if port]


def requests_in(some, types=NEW):
    """Of messages, the requests of these types: that make or change something. What is sent again after a refusal counts once."""
    out = []
    for type_, flags, _, payload in some:
        it = type_, flags & ~SENDERS, payload
        if type_ in types and it not in out[-1:]:
            out.append(it)
    return out


def is_of_block(request):
    return request[0] in (FILTER, CHAIN) and Object(request[0], request[2]).index == OF_BLOCK


def are_alike(sent, made):
    """Whether attributes are the same but for NLA_F_NESTED, which tcapply sets on each nest of a request."""
    if sent == made:
        return True
    one, two = attributes(sent), attributes(made)
    is_whole = one and sum(4 + len(it) + -len(it) % 4 for _, it in one) == len(sent) == len(made)
    return bool(is_whole) and len(one) == len(two) and all(a == b and are_alike(x, y) for (a, x), (b, y) in zip(one, two))


def is_as_made(sent, made):
    """Whether a request is the one that tcmake makes. The header before its attributes is `struct tcamsg` of an action, else `struct tcmsg`."""
    head = 4 if sent[0] == 48 else 20
    return sent[:2] == made[:2] and sent[2][:head] == made[2][:head] and are_alike(sent[2][head:], made[2][head:])


def as_made(sent, made):
    """Compares what was sent with what tcmake makes; a block's filters may be left out, since others may hold it. "" where it is the same."""
    sent, made = requests_in(asked(sent)), requests_in(messages(made))
    for some in (made, [it for it in made if not is_of_block(it)]):
        if len(sent) == len(some) and all(map(is_as_made, sent, some)):
            return ""
    for number, (one, two) in enumerate(zip(sent, made), 1):
        if not is_as_made(one, two):
            words = [f"{type_} {flags:#x} {payload.hex()}" for type_, flags, payload in (one, two)]
            return f"request {number} is sent as {words[0]}, and tcmake makes {words[1]}"
    return f"{len(sent)} requests are sent, and tcmake makes {len(made)}"


def leftovers(sent):
    """What a request has that only a kernel writes: statistics and times of an action. "" for nothing."""
    for type_, _, data in requests_in(asked(sent)):
        if type_ == 48:
            lists = [it for number, it in attributes(data[4:]) if number == 1]
        elif type_ == FILTER:
            own = Object(type_, data)
            lists = [it for number, it in own.options if number == ACTIONS_OF.get(own.kind)]
        else:
            continue
        for it in [it for some in lists for _, it in attributes(some)]:
            own = dict(attributes(it))
            kind, options = text(own[1]), dict(attributes(own.get(2, b"")))
            if COUNTED_OF_ACTION & own.keys():
                return f"a request has statistics of {kind}"
            if len(options.get(TIMES_OF.get(kind, 1), b"")) == 32:
                return f"a request has times of {kind}"
    return ""


def named(value):
    """The actions anywhere in a value of JSON: kind, number, and the record with the counts of who holds them."""
    if isinstance(value, list):
        for it in value:
            yield from named(it)
    elif isinstance(value, dict) and "tab" in value:
        own = {name: it for attribute in value["attributes"] if isinstance(attribute, dict) for name, it in attribute.items()}
        counts = counts_in(own.get("Options"))
        if counts:
            yield own["Kind"], counts["index"], counts
    elif isinstance(value, dict):
        for it in value.values():
            yield from named(it)


def counts_in(value):
    if isinstance(value, dict) and {"refcnt", "bindcnt"} <= value.keys():
        return value
    inner = value.values() if isinstance(value, dict) else value if isinstance(value, list) else []
    return next((it for it in map(counts_in, inner) if it), None)


def actions_of(path, clears, has_others):
    """The actions of a save, as if nothing held them, in a file of their own; if that `clears`, without those that only its filters hold, which go with
    these. A block's filters stay if others have the block."""
    lines = [json.loads(it) for it in open(path) if it.startswith('{"type"')]
    filters = [it for it in lines if it["type"] == "RTM_NEWTFILTER" and not (has_others and it["message"]["header"]["index"] == OF_BLOCK)]
    held = collections.Counter((kind, number) for it in filters for kind, number, _ in named(it["message"]["attributes"]))
    lists = [it for it in lines if it["type"] in ("RTM_GETACTION", "RTM_NEWACTION")]
    for attribute in [attribute for it in lists for attribute in it["message"]["attributes"] if "Actions" in attribute]:
        attribute["Actions"] = [one for one in attribute["Actions"] if not (clears and goes(one, held))]
        for _, _, counts in named(attribute["Actions"]):
            counts.update(refcnt=0, bindcnt=0)
    with open(f"{path}.actions", "w") as file:
        file.writelines(json.dumps(it) + "\n" for it in lists)
    return f"{path}.actions"


def goes(action, held):
    return any(counts["refcnt"] == counts["bindcnt"] == held[kind, number] for kind, number, counts in named(action))


def judged(programs, save, state, sent, options="", names="", has_others=False):
    """What is wrong with what was sent when a save was restored with these options, beside what was kept in the folder `state`; `names` is a
    file with the interfaces of then, where they weren't those of the save. "" for nothing."""
    wrong, words = leftovers(sent), options.split()
    if wrong or {"--map", "--partial"} & set(words):
        return wrong
    kept = glob.glob(f"{state}/*.json")
    if not kept:  # so nothing was to be done
        return f"{len(requests_in(asked(sent), ALL))} requests are sent, and no state is kept" if requests_in(asked(sent), ALL) else ""
    now = actions_of(kept[0], "--clear" in words, has_others)
    return as_made(sent, programs.requests(save, "--plan", now, *(["--names", names] if names else [])))
