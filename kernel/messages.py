"""Messages of route netlink: written in the notation of sent.txt, read with its names, changed into forms
that are not canonical, and dumps made requests."""

import collections
import ipaddress
import re
import struct
import sys

NESTED, BYTE_ORDER, TYPE = 0x8000, 0x4000, 0x3FFF
SIZES = {"u8": 1, "u16": 2, "u32": 4, "i16": 2, "i32": 4, "be16": 2, "be32": 4}
ADDRESSES = {"mac": 6, "ip4": 4, "ip6": 16}

# A row of an attribute table. `form` is how its payload is written, as sent.txt lists them.
Row = collections.namedtuple("Row", "name number form")


def lines_of(path):
    """The lines of a file without blank ones and comments."""
    with open(path) as file:
        return [it.rstrip("\n") for it in file if it.strip() and it[0] != "#"]


def halves_of(path):
    """The lines of sent.txt with names, and those with messages, which begin with a section."""
    found = lines_of(path)
    at = next(number for number, line in enumerate(found) if line[0] == "=")
    return found[:at], found[at:]


class Names:
    """The names in sent.txt: tables by name and by type, records, and for each kind the Rust variant around its options."""

    def __init__(self, path):
        self.by_name, self.by_type = collections.defaultdict(dict), collections.defaultdict(dict)
        self.records, self.layers = {}, {}
        for line in halves_of(path)[0]:
            head, _, rest = line.partition(": ")
            words, pairs = head.split(), [it.split() for it in rest.split(", ")]
            if words[0] in ("kind", "action-kind"):
                self.layers["tc" if words[0] == "kind" else "action", words[1]] = words[2]
            elif words[0] == "record":
                self.records[words[1]] = pairs
            else:
                for number, (name, form) in enumerate(pairs, int(words[1])):
                    row = Row(name, number, form)
                    self.by_name[words[0]][name] = self.by_type[words[0]][number] = row


class Attribute:
    """An attribute: its word (nla_type), its name, the form of its payload, and the payload or the attributes nested in
    it. `layer` is the Rust variant around an option; `table` and `at` say in which table and at which offset it was
    read."""

    def __init__(self, word, name="", form="", data=b"", inside=None):
        self.word, self.name, self.form, self.data, self.inside = word, name, form, data, inside
        self.layer, self.table, self.at = "", "", 0


def encode(attributes, pad=b"\0"):
    """The attributes' bytes, padded with `pad`."""
    out = b""
    for it in attributes:
        payload = it.data if it.inside is None else encode(it.inside, pad)
        out += struct.pack("<HH", 4 + len(payload), it.word) + payload + pad * (-len(payload) % 4)
    return out


def text_of(payload):
    return payload.removesuffix(b"\0").decode(errors="replace")


def kinds_of(attributes):
    """The kind of a message, or those of its actions."""
    own = [text_of(it.data) for it in attributes if it.name == "Kind"]
    actions = [action for it in attributes if it.form == "actions" for action in it.inside]
    return own[-1:] or list(dict.fromkeys(kind for it in actions for kind in kinds_of(it.inside)))


# ---- The notation


def handle_of(text):
    """A handle as tc writes it, or a plain number, in hex."""
    major, colon, minor = text.partition(":")
    if text == "root":
        return 0xFFFFFFFF
    return int(major, 16) << 16 | int(minor or "0", 16) if colon else int(text, 16)


def scalar(form, text):
    """The bytes of a plain value."""
    if form in SIZES:
        order = "big" if form[0] == "b" else "little"
        return (int(text, 0) % (1 << 8 * SIZES[form])).to_bytes(SIZES[form], order)
    if form in ("ip4", "ip6"):
        return ipaddress.ip_address(text).packed
    if form == "handle":
        return handle_of(text).to_bytes(4, "little")
    if form == "text":
        return text.encode() + b"\0"
    if form == "zeros":
        return bytes(int(text))
    return bytes.fromhex(text.replace(":", ""))


class Notation:
    """Reads the attributes of a message of sent.txt."""

    def __init__(self, names, text):
        self.names, self.words = names, text.split()

    def take(self, wanted=None):
        word = self.words.pop(0)
        if wanted not in (None, word):
            sys.exit(f"sent.txt: {word} in the place of {wanted}, before {' '.join(self.words[:6])}")
        return word

    def is_at_end(self):
        return not self.words or self.words[0] == "}"

    def attributes(self, table, kind=""):
        out = []
        while not self.is_at_end():
            word = self.take()
            number, colon, form = word.partition(":")
            if form == "{":
                self.words.insert(0, "{")
            row = self.names.by_name[table].get(word)
            if colon:
                row = Row("Other", int(number, 0), "list:" if form == "{" else form)
            if not row:
                sys.exit(f"sent.txt: no attribute {word} here, before {' '.join(self.words[:6])}")
            out.append(self.attribute(row, kind))
            if row.name == "Kind":
                kind = text_of(out[-1].data)
        return out

    def attribute(self, row, kind):
        form, _, inner = row.form.partition(":")
        it = Attribute(row.number | (NESTED if form == "nested" else 0), row.name, row.form)
        if form == "none":
            return it
        if form == "record" or self.words[0] != "{":
            it.data = self.record(inner) if form == "record" else self.value(form)
            return it
        self.take("{")
        it.inside = self.actions() if form == "actions" else self.attributes(kind if inner == "*" else inner)
        self.take("}")
        return it

    def actions(self):
        out = []
        while not self.is_at_end():
            number = int(self.take())
            self.take("{")
            out.append(Attribute(number, form="action", inside=self.attributes("action")))
            self.take("}")
        return out

    def record(self, name):
        fields, given = dict(self.names.records[name]), {}
        self.take("{")
        while not self.is_at_end():
            field = self.take()
            given[field] = self.value(fields[field])
        self.take("}")
        width = lambda form: SIZES.get(form) or ADDRESSES.get(form, 0)
        return b"".join(given.get(field, bytes(width(form))) for field, form in fields.items())

    def value(self, form):
        if form not in ("hex", "list", "nested"):
            return scalar(form, self.take())
        text = ""
        while self.words and re.fullmatch("([0-9a-f]{2})+", self.words[0]):
            text += self.take()
        return bytes.fromhex(text)


# The first message type of each object; and for each verb what is added to the type, and the flags. All requests but
# dumps are acknowledged, and the notification of a change comes back too (NLM_F_ECHO).
OBJECTS = {"qdisc": 36, "tclass": 40, "tfilter": 44, "action": 48, "chain": 100}
VERBS = {
    "new": (0, 0x60D),
    "replace": (0, 0x50D),
    "del": (1, 0x0D),
    "flush": (1, 0x10D),
    "get": (2, 0x05),
    "dump": (2, 0x301),
}


def mode_of(type_):
    """Which of tcrewrite's modes reads messages of this type."""
    return "action" if 48 <= type_ <= 50 else "tc"


class Message:
    """A message of sent.txt: its request, header and attributes, the links that it needs, and the names of the messages
    that are sent before it."""

    def __init__(self, names, name, fields, text):
        self.name = name
        self.verb, self.object = re.fullmatch(f"({'|'.join(VERBS)})({'|'.join(OBJECTS)})", fields["request"]).groups()
        number, self.flags = VERBS[self.verb]
        self.type = OBJECTS[self.object] + number
        self.mode = mode_of(self.type)
        self.after = [it for it in fields.get("after", "").split(",") if it]
        self.links = [int(fields[key]) for key in ("link", "links") if int(fields.get(key, -1)) > 0]
        self.header = bytes(4)
        if self.mode == "tc":
            protocol = int(fields.get("protocol", "0"), 16)
            info = int(fields.get("priority", "0")) << 16 | (protocol & 0xFF) << 8 | protocol >> 8
            self.link, self.parent = int(fields["link"]), handle_of(fields.get("parent", "0"))
            self.header = tc_header(self.link, handle_of(fields.get("handle", "0")), self.parent, info)
        self.table = "tc" if self.mode == "tc" else "actions"
        self.attributes = Notation(names, text).attributes(self.table)
        self.bytes = self.header + encode(self.attributes)
        self.kinds = kinds_of(self.attributes)

    def dumps(self):
        """The requests that show what the message changed."""
        type_, flags = OBJECTS[self.object] + 2, VERBS["dump"][1]
        if self.mode == "tc":
            return [(type_, flags, tc_header(self.link, 0, 0 if self.object == "tclass" else self.parent, 0))]
        actions = [Attribute(1, inside=[Attribute(1, data=kind.encode() + b"\0")]) for kind in self.kinds]
        return [(type_, flags, bytes(4) + encode([Attribute(1, inside=[it])])) for it in actions]


def tc_header(link, handle, parent, info):
    return struct.pack("<IiIII", 0, link, handle, parent, info)


def read_sent(names, path):
    """The messages of sent.txt by their names, SECTION.NAME."""
    messages, section, fields, lines = {}, "", {}, []
    for line in halves_of(path)[1]:
        if line[0] == " ":
            lines[-1] += line
        else:
            lines.append(line)
    for line in lines:
        if line[0] == "=":
            _, section, request, *rest = line.split()
            fields = dict([it.split("=") for it in rest], request=request)
            continue
        head, attributes = re.fullmatch(r"(\w+(?: \w+=\S*)*):(?: (.*))?", line).groups()
        name, *own = head.split()
        own = dict(it.split("=") for it in own)
        messages[f"{section}.{name}"] = Message(names, f"{section}.{name}", {**fields, **own}, attributes or "")
    return messages


# ---- Bytes read with the names


def parse_message(names, mode, data):
    """The header, and the attributes as far as they are whole."""
    size, table = (20, "tc") if mode == "tc" else (4, "actions")
    return data[:size], parse(names, data[size:], table, "", size)


def parse(names, data, table, kind, at):
    out, here = [], 0
    while here + 4 <= len(data):
        length, word = struct.unpack_from("<HH", data, here)
        if length < 4 or here + length > len(data):
            break
        row = names.by_type[table].get(word & TYPE, Row("Other", 0, "hex"))
        it = Attribute(word, row.name, row.form, data[here + 4 : here + length])
        it.table, it.at = table, at + here
        if row.name == "Kind":
            kind = text_of(it.data)
        nest(names, it, kind)
        out.append(it)
        here += length + -length % 4
    return out


def nest(names, it, kind):
    """Reads what is nested in an attribute, under this kind."""
    form, _, inner = it.form.partition(":")
    inside = lambda table, kind: parse(names, it.data, table, kind, it.at + 4)
    if form == "actions":
        it.inside = inside("", "")
        for action in it.inside:
            action.form, action.name = "action", ""
            action.inside = parse(names, action.data, "action", action_kind(names, action.data), action.at + 4)
    elif inner == "*":
        layer = names.layers.get((it.table, kind))
        if not layer and it.table == "tc":
            it.name, it.form = "OptionsRaw", "hex"
            return
        it.inside = inside(kind if layer else "", "")
        for option in it.inside:
            option.layer = layer or "Other"
    elif inner and form != "record":
        it.inside = inside(inner, kind)


def action_kind(names, data):
    kinds = [text_of(it.data) for it in parse(names, data, "", "", 0) if it.word & TYPE == 1]
    return kinds[-1] if kinds else ""


def pointers(attributes, path="/attributes"):
    """Each attribute with its JSON pointer, those with nested attributes before them."""
    for index, it in enumerate(attributes):
        steps = [str(index), it.layer, it.name if it.layer != "Other" else ""]
        own = "/".join([path, *filter(None, steps)])
        yield own, it
        if it.inside is not None:
            yield from pointers(it.inside, own + "/attributes" * (it.form == "action"))


def pointer_at(names, mode, data, offset):
    """The JSON pointer of the attribute at this offset: the last that starts there or before."""
    found = [(it.at, own) for own, it in pointers(parse_message(names, mode, data)[1]) if it.at <= offset]
    return max(found)[1] if found else "/header"


def shown(names, mode, data):
    """The payloads of a message by their pointers, with the type of an attribute without a name; records field by
    field, and of nested attributes the word, where it has a flag."""
    header, attributes = parse_message(names, mode, data)
    out = {"/header": header.hex()}
    for own, it in pointers(attributes):
        form, _, inner = it.form.partition(":")
        if it.name == "Other":
            own += f" {it.word & TYPE}"
        if it.inside is not None:
            if form == "nested":
                out[own] = f"{it.word:#06x}"
        elif form == "record":
            at = 0
            for field, form in names.records[inner]:
                width = SIZES.get(form) or ADDRESSES.get(form) or len(it.data) - at
                out[f"{own}/{field}"] = show(form, it.data[at : at + width])
                at += width
        else:
            out[own] = show(form, it.data)
    return out


def show(form, data):
    """A payload for people: a number, an address or a text where it is one, else hex."""
    if len(data) == SIZES.get(form):
        return str(int.from_bytes(data, "big" if form[0] == "b" else "little", signed=form[0] == "i"))
    if form in ("ip4", "ip6") and len(data) == ADDRESSES[form]:
        return str(ipaddress.ip_address(data))
    if form == "text":
        return text_of(data)
    return data.hex(":") if form == "mac" else data.hex() or "empty"


# ---- Forms that are not canonical


def changed(attributes, change, holder):
    """Copies of the attributes with `change(copy, holder)` done to each; `holder` is what they are nested in."""
    out = []
    for it in attributes:
        copy = Attribute(it.word, it.name, it.form, it.data)
        if it.inside is not None:
            copy.inside = changed(it.inside, change, it.name or it.form)
        change(copy, holder)
        out.append(copy)
    return out


def set_flag(flag, is_meant):
    def change(it, holder):
        it.word |= flag * is_meant(it, holder)

    return change


def clear_nested(holder, name):
    def change(it, inside):
        if (inside, it.name) == (holder, name):
            it.word &= ~NESTED

    return change


def drop_nul(is_kind):
    def change(it, holder):
        if it.form == "text" and (it.name == "Kind") == is_kind:
            it.data = it.data.removesuffix(b"\0")

    return change


def is_number_of_options(it, holder):
    return holder not in ("tc", "actions", "action") and it.form in (*SIZES, *ADDRESSES, "handle")


FORMS = {
    "options_nested": set_flag(NESTED, lambda it, holder: (holder, it.name) == ("tc", "Options")),
    "action_options_plain": clear_nested("action", "Options"),
    "mpls_options_plain": clear_nested("Options", "MplsOpts"),
    "mpls_lse_plain": clear_nested("MplsOpts", "Lse"),
    "byte_order": set_flag(BYTE_ORDER, is_number_of_options),
    "kind_without_nul": drop_nul(True),
    "text_without_nul": drop_nul(False),
}


def forms_of(message):
    """The forms of a message that differ from it, by name."""
    header, attributes = message.header, message.attributes
    forms = {name: header + encode(changed(attributes, change, message.table)) for name, change in FORMS.items()}
    forms["padding_ff"] = header + encode(attributes, b"\xff")
    forms["header_ff"] = header[:1] + b"\xff" * 3 + header[4:] + encode(attributes)
    return {name: data for name, data in forms.items() if data != message.bytes}


# ---- Requests made of what was dumped


def is_made_with_others(names, type_, data):
    """Whether the kernel makes this object without a request: a classifier, dumped without a handle before its filters, and
    u32's root table."""
    if type_ != OBJECTS["tfilter"]:
        return False
    handle = int.from_bytes(data[8:12], "little")
    kinds = kinds_of(parse_message(names, "tc", data)[1])
    return handle == 0 or kinds == ["u32"] and handle >> 20 >= 0x800 and handle & 0xFFFFF == 0


IN_HW, NOT_IN_HW = 4, 8


def request_of(names, mode, data):
    """The request that restores a dumped message: without what only kernels write, with actions counted from 1."""
    header, attributes = parse_message(names, mode, data)
    attributes = [it for it in attributes if it.name not in ("Stats", "Xstats", "Stats2", "RootCount")]
    edit_options(attributes)
    return header + encode(attributes)


def edit_options(attributes):
    for it in attributes:
        if it.form == "actions":
            for number, action in enumerate(it.inside, 1):
                action.word = number
                edit_action(action)
        elif it.name == "Options" and it.inside:
            it.inside = [x for x in it.inside if x.name not in ("InHwCount", "Pnct")]
            for x in it.inside:
                if x.name == ("FlagsGeneric" if x.layer == "Bpf" else "Flags"):
                    x.data = (int.from_bytes(x.data, "little") & ~(IN_HW | NOT_IN_HW)).to_bytes(4, "little")
            edit_options(it.inside)


def edit_action(action):
    # TCA_ACT_STATS, TCA_ACT_PAD, TCA_ACT_USED_HW_STATS, TCA_ACT_IN_HW_COUNT
    action.inside = [it for it in action.inside if it.word & TYPE not in (4, 5, 9, 10)]
    for it in action.inside:
        if it.name == "Options":
            # Padding is empty, and the times are the option of 32 bytes.
            it.inside = [x for x in it.inside if x.inside or len(x.data) not in (0, 32)]
