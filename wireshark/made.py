"""Captures for `check`: stored messages, answers of the kernel that are made by hand, changed messages, broken frames, and packets without netlink."""
import os
import re
import struct

TOP = os.path.dirname(os.path.dirname(os.path.abspath(__file__)))
NAMED = f'{TOP}/model/labelled'  # the messages with labels
VERBS, OBJECTS = ['new', 'del', 'get'], {'qdisc': 36, 'tclass': 40, 'tfilter': 44, 'action': 48, 'chain': 100}


# ---- files

def cooked(messages, link=253):
    """A packet of netlink messages after a cooked header."""
    if link == 276:  # LINKTYPE_LINUX_SLL2
        return struct.pack('>HHIHBB8x', 0, 0, 1, 824, 4, 0) + messages
    return struct.pack('>HH10xH', 4, 824, 0) + messages


def write_frames(path, frames, link=253):
    with open(path, 'wb') as file:
        file.write(struct.pack('<IHHiIII', 0xA1B2C3D4, 2, 4, 0, 0, 1 << 18, link))
        for i, frame in enumerate(frames):
            file.write(struct.pack('<IIII', 1_764_028_800 + i // 1000, i % 1000, len(frame), len(frame)) + frame)


def write(path, packets, link=253):
    """A capture of packets, each of some netlink messages."""
    write_frames(path, [cooked(b''.join(padded(x) for x in messages), link) for messages in packets], link)


def padded(message):
    return message + bytes(-len(message) % 4)


# ---- messages

def netlink(kind, payload, flags=0, seq=0, order='<', port=0):
    return struct.pack(order + 'IHHII', 16 + len(payload), kind, flags, seq, port) + payload


def attribute(kind, payload, order='<'):
    return padded(struct.pack(order + 'HH', 4 + len(payload), kind) + payload)


def stored_messages():
    with open(f'{TOP}/rust/conjareho-tools/testdata/tcmake_stored_shown/data/messages') as file:
        return [bytes.fromhex(line) for line in file]


def named_messages(path):
    """The messages of a file with a name, `tc` or `action`, and hex in each line; a name such as tdc61.answer.newqdisc.fq.0001 has the type."""
    messages = []
    with open(path) as file:
        for words in map(str.split, file):
            if len(words) >= 3 and words[1] in ('tc', 'action') and re.fullmatch('[0-9a-f]+', words[2]):
                type_in = re.search(r'\.(new|del|get)(qdisc|tclass|tfilter|action|chain)\.', words[0])
                kind = OBJECTS[type_in[2]] + VERBS.index(type_in[1]) if type_in else 36 if words[1] == 'tc' else 48
                messages.append(netlink(kind, bytes.fromhex(words[2]), 0, len(messages)))
    return messages


# ---- answers

def request(order, seq, nested=0):
    """A request for fq_codel on interface 3, and where its attributes `Quantum` and `Options` begin."""
    def number(kind, n):
        return attribute(kind, struct.pack(order + 'I', n), order)
    options = number(2, 10240) + number(1, 5000) + number(6, 1 << 20)
    head = struct.pack(order + 'BxHiIII', 0, 0, 3, 0x10000, 0xFFFFFFFF, 0) + attribute(1, b'fq_codel\0', order)
    message = netlink(36, head + attribute(2 | nested, options, order), 0x605, seq, order)
    return message, message.rindex(struct.pack(order + 'HH', 8, 6)), 16 + len(head)


def answer(order, asked, seq, error, attributes, capped=False):
    quoted = asked[:16] if capped else padded(asked)
    flags = (0x200 if attributes else 0) | (0x100 if capped else 0)
    return netlink(2, struct.pack(order + 'i', -error) + quoted + attributes, flags, seq, order, 4711)


def answers(order):
    """Frames, each a message: interface 3 is eth0; a refusal with an offset; one that is capped; an acknowledgement; a missing attribute in a nest; one in
    the message; a policy; a warning."""
    def number(kind, n):
        return attribute(kind, struct.pack(order + 'I', n), order)
    out = [netlink(16, struct.pack(order + 'BxHiII', 0, 1, 3, 0, 0) + attribute(3, b'eth0\0', order), 2, 1, order)]
    policy = number(1, 4) + attribute(4, struct.pack(order + 'Q', 1), order) + attribute(5, struct.pack(order + 'Q', 2 ** 64 - 1), order)
    asked, quantum, options = request(order, 0)
    said = [(22, attribute(1, b'Invalid quantum\0', order) + number(2, quantum), False),
            (22, attribute(1, b'Invalid quantum\0', order) + number(2, quantum), True),
            (0, b'', True),
            (22, attribute(1, b'Missing attribute\0', order) + number(5, 3) + number(6, options), False),
            (2, number(5, 10), False),
            (34, attribute(1, b'integer out of range\0', order) + number(2, quantum) + attribute(0x8004, policy, order), False),
            (0, attribute(1, b'a "warning"\x1b\0', order) + attribute(3, b'\xca\xfe', order), False)]
    for seq, (error, attributes, capped) in enumerate(said, 70):
        asked = request(order, seq)[0]
        out += [asked, answer(order, asked, seq, error, attributes, capped)]
    return out


# What tshark -V shows of these frames, by their numbers
MARKS = {
    2: ['[Answer in: 3]', '[Refused: EINVAL: Invalid quantum]', 'Quantum: 1048576B   <== refused: EINVAL: Invalid quantum', 'Index: 3 (eth0)', '[Interface: eth0]'],
    3: ['[Request in: 2]', 'Error: EINVAL', 'Message: "Invalid quantum"', 'Offset: 72', 'Quantum: 1048576B   <== refused: EINVAL: Invalid quantum'],
    4: ['[Answer in: 5]', 'Quantum: 1048576B   <== refused: EINVAL: Invalid quantum'],
    5: ['[Request in: 4]', 'Error: EINVAL'],
    6: ['[Answer in: 7]'],
    7: ['[Request in: 6]', 'NLMSG_ERROR acknowledgement'],
    8: ['[Answer in: 9]', 'Options   <== attribute 3 is missing (TCA_FQ_CODEL_INTERVAL)'],
    9: ['Miss type: 3', 'Miss nest: 52', 'Options   <== attribute 3 is missing (TCA_FQ_CODEL_INTERVAL)'],
    10: ['[Refused: ENOENT]', 'attribute 10 is missing (TCA_DUMP_INVISIBLE)'],
    11: ['Error: ENOENT', 'Miss type: 10', 'attribute 10 is missing (TCA_DUMP_INVISIBLE)'],
    12: ['Quantum: 1048576B   <== refused: ERANGE: integer out of range'],
    13: ['Policy', 'Type: u32 (4)', 'Min value u: 1', 'Max value u: 18446744073709551615'],
    14: ['[Answer in: 15]'],
    15: ['Error: ok', r'Message: "a \"warning\"\x1b"', 'Cookie: cafe', r'NLMSG_ERROR warning: a "warning"\x1b'],
}
# how many frames a filter chooses, in two passes
FILTERS = [(5, 'tc.refused'), (5, 'tc.refusal'), (3, 'tc.error == "EINVAL"'), (5, 'tc.error > 0'), (2, 'tc.extack.miss_type'), (1, 'tc.extack.policy'),
           (3, 'tc.extack.offset == 72'), (12, 'tc.fq_codel.quantum == 1048576'), (7, 'tc.answer_in'), (7, 'tc.request_in'), (7, 'tc.request'),
           (7, 'tc.answer'), (7, 'tc.msg.type == "RTM_NEWQDISC"'), (7, 'tc.quoted.type == "RTM_NEWQDISC"'), (12, 'tc.dev == "eth0"'),
           (7, 'tc.verb == "add"'), (5, 'tc.verb == "refused"'), (12, 'tc.handle.number == 0x10000'), (5, 'tc.expert.refused')]


# ---- changed and broken ones

def changed(messages, random, count):
    """Messages whose payloads are changed; their netlink headers are whole."""
    for _ in range(count):
        message = random.choice(messages)
        body = bytearray(message[16:])
        for _ in range(random.choice([1, 1, 2, 4])):
            change(body, random)
        if random.random() < 0.3:
            body += bytes(-len(body) % 4)
        yield netlink(*[struct.unpack_from('<H', message, 4)[0], bytes(body)], *struct.unpack_from('<HI', message, 6))


def change(body, random):
    at, what = random.randrange(len(body)) if body else 0, random.randrange(7)
    if not body:
        return
    if what == 0:
        body[at] ^= 1 << random.randrange(8)
    elif what == 1:
        body[at] = random.choice([0, 1, 4, 255, 128])
    elif what == 2:
        del body[at:at + random.choice([1, 2, 4, 8])]
    elif what == 3:
        body[at:at] = bytes(random.randrange(256) for _ in range(random.choice([1, 4, 8])))
    elif what == 4:
        del body[at:]
    else:
        values = [0, 3, 4, 5, 8, 65535, random.randrange(300)] if what == 5 else [1, 2, 3, 0x8002, random.randrange(0xFFFF)]
        at = at // 4 * 4 + (2 if what == 6 else 0)
        body[at:at + 2] = struct.pack('<H', random.choice(values))


def broken(frames, random, count):
    """Frames that are changed anywhere after the cooked header."""
    for _ in range(count):
        frame = bytearray(random.choice(frames))
        for _ in range(random.choice([1, 2, 4, 8])):
            at, what = random.randrange(16, max(17, min(len(frame), random.choice([40, 80, 4000])))), random.randrange(5)
            if at >= len(frame):
                continue
            if what == 0:
                frame[at] ^= 1 << random.randrange(8)
            elif what == 1:
                number = random.choice([0, 1, 15, 16, 17, 0xFFFFFFFF, 0x7FFFFFFF, 0x80000000, len(frame)])
                frame[at:at + 4] = struct.pack('<I', number)[:len(frame) - at]
            elif what == 2:
                del frame[at:]
            elif what == 3:
                frame[at:at] = bytes([random.randrange(256)])
            else:
                frame[at:at] = bytes(random.randrange(256) for _ in range(40))
        yield bytes(frame)


# ---- packets without netlink

def checksum(octets):
    total = sum(struct.unpack('>%dH' % (len(octets) // 2), octets))
    total = (total & 0xFFFF) + (total >> 16)
    return ~(total + (total >> 16)) & 0xFFFF


def ip(protocol, payload):
    head = struct.pack('>BBHHHBBH4s4s', 0x45, 0, 20 + len(payload), 1, 0, 64, protocol, 0, bytes([10, 0, 0, 1]), bytes([10, 0, 0, 2]))
    return head[:10] + struct.pack('>H', checksum(head)) + head[12:] + payload


def write_others(path, count):
    """A capture of TCP, DNS and ARP over Ethernet."""
    ethernet = bytes.fromhex('020000000001' '020000000002')
    question = bytes.fromhex('0000010000010000000000000377777707') + b'example' + bytes.fromhex('03') + b'com' + bytes.fromhex('0000010001')
    arp = bytes.fromhex('ffffffffffff') + ethernet[6:] + bytes.fromhex('08060001080006040001' '020000000002' '0a000001' '000000000000' '0a000002')
    frames = []
    for i in range(count):
        if i % 4 < 2:
            payload = struct.pack('>HHIIBBHHH', 40000 + i % 50, 443 if i % 4 else 80, i * 1000 & 0xFFFFFFFF, 1, 0x50, 0x18, 1000, 0, 0) + bytes(i * 7 % 1000)
            frames.append(ethernet + b'\x08\0' + ip(6, payload))
        else:
            frames.append(ethernet + b'\x08\0' + ip(17, struct.pack('>HHHH', 5000, 53, 8 + len(question), 0) + question) if i % 4 == 2 else arp)
    write_frames(path, frames, 1)
