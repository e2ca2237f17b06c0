"""What is shown of bytes by their form. The tables of forms are in `kinds.py`; both are the model of `tcshow --json`, whose stored run has what
they write. They share nothing with the crates.

A form says what bytes are: a number, a record, a list of attributes. Bytes that follow their form are shown by it; what doesn't follow it exactly is shown
raw in its place, so that no two messages are shown alike:

    {"raw":"dead"}                                anything: a value of the wrong length, a text that isn't UTF-8, bytes at the end of a list
    {"Other":9}                                   a number without a name
    {"Other":"dead"}                              where no choice fits
    {"Other":{"word":9,"value":"dead"}}           an attribute of a type without a row
    "word", "pad"                                 beside an attribute: another word than the row's; padding that isn't zeros or is missing
    "rest", "padding"                             in a record: bytes after it; padding that isn't zeros
    {"Kind":"htb","bare":true}                    a kind without its NUL
    {"tab":1,"attributes":[..]}                   an element of an indexed list
"""

import socket
import struct

NESTED, BYTEORDER = 0x8000, 0x4000
DEEPEST = 16  # what nests deeper is raw

def raw(data): return {"raw": data.hex()}

class Form:
    """How many bytes there have to be, or None for any number, and what is shown of them under a kind."""
    def __init__(self, width, show, pads=False):
        self.width, self.show, self.pads = width, show, pads

    def __call__(self, data, kind, depth):
        return self.show(data, kind, depth - 1) if depth else raw(data)

# ---- Plain values

def plain(width, value):
    def show(data, kind, depth):
        if width not in (None, len(data)):
            return raw(data)
        try:
            return value(data)
        except ValueError:
            return raw(data)
    return Form(width, show)

def number(width, order="little", signed=False, names=None):
    def value(data):
        found = int.from_bytes(data, order, signed=signed)
        return found if names is None else names.get(found, {"Other": found})
    return plain(width, value)

def text_of(data):
    """The text before one NUL at the end."""
    if data[-1:] != b"\0":
        raise ValueError
    return data[:-1].decode()

def handle_of(data):
    found = int.from_bytes(data, "little")
    major, minor = found >> 16, found & 0xFFFF
    if found in (0, 0xFFFFFFFF):
        return "root" if found else "0:0"
    return (f"{major:x}" if major else "") + ":" + (f"{minor:x}" if minor else "")

def truth_of(data):
    if data not in (b"\0", b"\1"):
        raise ValueError
    return data == b"\1"

U8, U16, U32, U64 = (number(width) for width in (1, 2, 4, 8))
I16, I32, I64 = (number(width, signed=True) for width in (2, 4, 8))
BE16, BE32, BE64 = (number(width, "big") for width in (2, 4, 8))
HANDLE, TRUTH, FLAG = plain(4, handle_of), plain(1, truth_of), plain(0, lambda data: True)
TEXT, BARE, HEX = plain(None, text_of), plain(None, bytes.decode), plain(None, bytes.hex)
MAC = plain(6, lambda data: ":".join(f"{byte:02x}" for byte in data))
IPV4 = plain(4, lambda data: socket.inet_ntop(socket.AF_INET, data))
IPV6 = plain(16, lambda data: socket.inet_ntop(socket.AF_INET6, data))
def octets(width): return plain(width, bytes.hex)
def padding(width, name="padding"): return name, Form(width, octets(width).show, pads=True)

# ---- Records, and their elements one after the other

def taken(form, data):
    """A field's bytes, and those after it."""
    return (data, b"") if form.width is None else (data[:form.width], data[form.width:])

def record(*fields):
    widths = [form.width for _, form in fields]
    def show(data, kind, depth):
        if len(data) < sum(width or 0 for width in widths):
            return raw(data)
        shown = {}
        for name, form in fields:
            part, data = taken(form, data)
            if not form.pads or any(part):
                shown[name] = form(part, kind, depth)
        if data:
            shown["rest"] = data.hex()
        return shown
    return Form(None if None in widths else sum(widths), show)

def array(form, count=None):
    """Elements to the end, or so many in a record."""
    def show(data, kind, depth):
        return [form(data[at:at + form.width], kind, depth) for at in range(0, len(data), form.width)]
    return Form(count and count * form.width, show)

def choice(*choices):
    """The first that bytes begin like, and that has their length, if one is given."""
    def show(data, kind, depth):
        for name, prefix, form, *length in choices:
            if data.startswith(prefix) and length in ([], [len(data)]):
                return {name: form(data[len(prefix):], kind, depth)}
        return {"Other": data.hex()}
    return Form(None, show)

# ---- Lists of attributes

def cut(data):
    """Attributes: word, value, and padding as it is, which may be missing at the end; and the bytes that are none."""
    found = []
    while len(data) >= 4:
        length, word = struct.unpack("<HH", data[:4])
        if not 4 <= length <= len(data):
            break
        end = (length + 3) // 4 * 4
        found.append((word, data[4:length], data[length:end]))
        data = data[end:]
    return found, data

def type_of(word): return word & ~(NESTED | BYTEORDER)

def beside(shown, wanted, word, value, pad):
    """The word, if another is wanted, and the padding, unless it is zeros and all there."""
    if word != wanted:
        shown["word"] = word
    if pad != bytes(-len(value) % 4):
        shown["pad"] = pad.hex()
    return shown

def kind_in(word, value):
    """The kind that an attribute tells, and what is shown of it; None if it tells none."""
    if type_of(word) != 1:
        return None
    bare = not value.endswith(b"\0")
    try:
        kind = value.decode() if bare else value[:-1].decode()
    except ValueError:
        return None
    return kind, {"Kind": kind, "bare": True} if bare else {"Kind": kind}

def attribute(rows, word, value, pad, kind, depth):
    """By the row of its type: that under its kind, or else that under every kind."""
    row = rows.get((kind, type_of(word))) or rows.get(type_of(word))
    if row is None:
        return beside({"Other": {"word": word, "value": value.hex()}}, word, word, value, pad)
    wanted, name, form = row
    return beside({name: form(value, kind, depth)}, wanted, word, value, pad)

def tail(data): return [raw(data)] if data else []

def rows_of(*rows):
    """A table by type, or by kind and type: of each row its word, its name and its form."""
    found = {}
    for word, name, form, *kinds in rows:
        for kind in kinds:
            found[kind, type_of(word)] = word, name, form
        if not kinds:
            found[type_of(word)] = word, name, form
    return found

def list_of(*rows, layer=None):
    """By these rows; with a layer, each attribute within an object of one member."""
    rows = rows_of(*rows)
    def show(data, kind, depth):
        frames, left = cut(data)
        shown = [attribute(rows, *frame, kind, depth) for frame in frames]
        return ([{layer: one} for one in shown] if layer else shown) + tail(left)
    return Form(None, show)

def list_with_kinds(*rows, own=False):
    """Each attribute under the kind that was told last before it, or, if the list has its own, under the first that it tells, at any place."""
    rows = rows_of(*rows)
    def show(data, kind, depth):
        frames, left = cut(data)
        if own:
            kind = next((told[0] for told in (kind_in(*frame[:2]) for frame in frames) if told), "")
        shown = []
        for word, value, pad in frames:
            told = kind_in(word, value)
            if told is None:
                shown.append(attribute(rows, word, value, pad, kind, depth))
            else:
                kind = kind if own else told[0]
                shown.append(beside(told[1], 1, word, value, pad))
        return shown + tail(left)
    return Form(None, show)

def indexed(form):
    """Attributes of any types, which all hold this form."""
    def show(data, kind, depth):
        frames, left = cut(data)
        return [beside({"tab": word, "attributes": form(value, kind, depth)}, word, word, value, pad) for word, value, pad in frames] + tail(left)
    return Form(None, show)
