"""Compares the trees of the dissector, as PDML, with tcshow: the value of each leaf with its JSON, and the text of each line with its outline."""
import collections
import ipaddress
import json
import os
import re
import sys
import xml.etree.ElementTree

HERE = os.path.dirname(os.path.abspath(__file__))
sys.path[:0] = [HERE, os.path.join(HERE, '..', 'kinds')]
sys.dont_write_bytecode = True
import notation
from labels import label
from notation import snake

notation.read_all()
# the numbers that a name in JSON can stand for
NUMBERS = collections.defaultdict(set)
for block in notation.blocks.values():
    for x in block.lines if block.sort == 'enum' else []:
        NUMBERS[x.name].add(x.number)
# lines of the dissector's own, which neither JSON nor outlines have
OWN = re.compile(r'tc\.(nla\.|msg\.|quoted\.|expert|answer|request|refus|pref$|protocol$|verb$|dev$)|_ws\.')
# names of outlines by the labels of trees
NAMES = {}


def name_again(text):
    """A name of outlines at the beginning of a line, instead of its label."""
    text, marked, mark = text.partition('   <== ')
    found, colon, rest = text.partition(': ')
    rest += marked + mark
    numbered = re.fullmatch(r'(.*?)( \d+)', found)
    if numbered and found not in NAMES:
        return NAMES.get(numbered[1], numbered[1]) + numbered[2] + colon + rest
    return NAMES.get(found, found) + colon + rest


def names_of_outlines():
    """All names that a line of an outline begins with."""
    yield from ('raw', 'rest', 'other', 'value', 'count', 'info', 'block', 'request', 'error', 'padding')
    yield from notation.EACH.values()
    for block in list(notation.blocks.values()) + notation.kinds:
        for x in block.lines:
            yield x.columns.get('as', x.name if block.sort == 'struct' else snake(x.name))
            if hasattr(x, 'other'):
                yield snake(x.other.name)


notation.read(os.path.join('..', 'wireshark', 'netlink'))
for name in names_of_outlines():
    if NAMES.setdefault(label(name), name) != name:
        sys.exit(f'{name} and {NAMES[label(name)]} have the same label')
LONGEST = 200  # Wireshark cuts the text of a line at some 240 characters


def clean(text):
    """A text as the dissector gives it to Wireshark."""
    return ''.join(chr(b) if 32 <= b <= 126 else '\\x%02x' % b for b in text.encode())


def is_twin(element):
    """True for the second name of a value, which trees don't show."""
    return element.get('hide') == 'yes'


class Item:
    """A line of a tree: its name, value, text and lines below."""

    def __init__(self, element):
        self.name = (element.get('name') or '').replace('_ws.lua.text', '')
        self.show, self.text = element.get('show') or '', name_again(re.sub(r'^ ?\[truncated\]', '', element.get('showname') or ''))
        self.all = [Item(x) for x in element if x.tag in ('field', 'proto') and not is_twin(x)]
        self.below = [x for x in self.all if not OWN.match(x.name)]

    def own(self, name):
        """The first line of the dissector's own with this name below this one."""
        return next((x for x in self.all if x.name == name), None)

    def odd(self):
        """What JSON has in addition of an attribute: a word that isn't the usual one, and padding."""
        word, pad = self.own('tc.nla.type'), self.own('tc.nla.pad')
        found = [('word', int(word.show, 0))] if word and 'usually' in word.text else []
        return found + ([('pad', pad.show.replace(':', ''))] if pad else [])


def is_leaf(item):
    """True for a line with a value, whose lines below are its bits, or a mask or an end that is joined with it."""
    return bool(re.match(r'tc\..*', item.name)) and ': ' in item.text and item.name not in EACH or item.name in RAW


RAW = ('tc.raw', 'tc.rest', 'tc.other')
# the attributes of any type, such as actions
EACH = {'tc.' + name: each for name, each in notation.EACH.items() if ('struct', name) not in notation.blocks}


def joined(item):
    """The mask or the end that is joined with a line: it is below it."""
    return [x for x in item.below if is_leaf(item) and x.name.startswith('tc.') and not x.name.startswith(item.name + '.')]


def leaves_of_items(items):
    for item in items:
        if item.name in EACH:
            yield 'tab', str(int(item.own('tc.nla.type').show, 0)), item
            yield from leaves_of_items(item.below)
        elif item.name == 'tc.other' and item.own('tc.nla.type'):
            yield 'word', item.own('tc.nla.type').show, item
            yield 'value', item.show, item
        elif is_leaf(item):
            yield item.name.rpartition('.')[2], item.show, item
            if item.text.endswith(' (without a NUL)'):
                yield 'bare', '1', item
        else:
            yield from leaves_of_items(item.below)
        for name, value in item.odd():
            yield name, str(value), item
        yield from leaves_of_items(joined(item))


def leaves_of_json(value, name=''):
    if isinstance(value, dict):
        for key, x in value.items():
            if key == 'Other' and isinstance(x, int):
                yield name, x
            else:
                yield from leaves_of_json(x, key)
    elif isinstance(value, list):
        for x in value:
            yield from leaves_of_json(x, name)
    else:
        yield name, value


def number(text):
    try:
        return int(text, 0)
    except ValueError:
        return None


def same(leaf, shown):
    """True if a leaf of JSON is what an item has."""
    (name, value), (own, show, item) = leaf, shown
    if own != snake(name):
        return False
    if isinstance(value, bool):
        return show in (('1', 'True') if value else ('0', 'False'))
    if isinstance(value, int):
        return number(show) == value
    if show == clean(value) or show.replace(':', '') == value:
        return True
    if value in NUMBERS and number(show) in NUMBERS[value]:
        return True
    try:
        return ipaddress.ip_address(show) == ipaddress.ip_address(value)
    except ValueError:
        return False


def differs(message, items):
    """The first leaf of the JSON of a message that isn't that of the items; None if all are the same."""
    wanted, found = list(leaves_of_json(message)), list(leaves_of_items(items))
    for i in range(max(len(wanted), len(found))):
        a, b = wanted[i] if i < len(wanted) else None, found[i] if i < len(found) else None
        if a is None or b is None or not same(a, b):
            return 'JSON %s, tree %s' % (a, b and (b[2].name, b[1], b[2].text))
    return None


# ---- lines

def lines_of(items, depth):
    for item in items:
        line = re.sub(r'   <== .*| \(without a NUL\)$', '', item.text)
        line = re.sub(r': .*', '', line) if item.name in EACH else line.replace(': ', ' ', 1)
        yield depth, line
        if item.text.endswith(' (without a NUL)'):
            yield depth, 'bare true'
        if not item.name:
            for element in item.below if ': ' not in item.text else []:  # an outline has a record of an array in one line
                yield depth + 1, ' '.join(x for _, x in lines_of([element], 0))
        elif not is_leaf(item):
            yield from lines_of(item.below, depth + 1)
        for name, value in [x for part in [item] + joined(item) for x in part.odd()]:
            yield depth, ('word 0x%04x' % value) if name == 'word' else 'pad %s' % (value or '""')


def is_kind_late(value):
    """True if an action has options before its kind, or several kinds: outlines take the last kind before the options."""
    if isinstance(value, dict):
        names = [next(iter(x)) for x in value.get('attributes', []) if isinstance(x, dict)] if 'tab' in value else []
        return 'Options' in names and names[:names.index('Options')].count('Kind') != 1 or any(is_kind_late(x) for x in value.values())
    return isinstance(value, list) and any(is_kind_late(x) for x in value)


def line_differs(outline, items):
    """The first line of an outline, below its first, that isn't that of the items."""
    found = list(lines_of(items, 0))
    wanted = [((len(x) - len(x.lstrip())) // 2, x.strip()) for x in outline if not x.startswith('refused ')]
    for i in range(max(len(wanted), len(found))):
        a, b = wanted[i] if i < len(wanted) else None, found[i] if i < len(found) else None
        if a is None or b is None or a[0] != b[0] or a[1].rstrip('-')[:LONGEST] != b[1][:LONGEST]:
            return 'outline %s, tree %s' % (a, b)
    return None


# ---- files

def trees(path):
    """The trees of a PDML file, each with the number of its frame."""
    frame = None
    for _, element in xml.etree.ElementTree.iterparse(path):
        if element.tag == 'packet':
            frame = int(element.find("proto[@name='geninfo']/field[@name='num']").get('show'))
            for proto in element.findall('proto'):
                if proto.get('name') == 'tc':
                    yield frame, Item(proto)
            element.clear()


def messages(text):
    """The messages of tcshow's JSON: each line that has one, or that answers a request."""
    for line in text.splitlines():
        line = json.loads(line)
        if 'message' in line or 'request' in line:
            yield line


def outlines(text):
    """The outlines of tcshow: lines of each, without the time."""
    for part in text.split('\n\n'):
        part = part.strip('\n').split('\n')
        if re.match(r'\d+\.\d+ ', part[0]):
            yield [part[0].split(' ', 1)[1]] + part[1:]


def compare(json_text, outline_text, pdml):
    """Counts messages and leaves, and what differs: a dictionary of complaints."""
    count, bad = collections.Counter(), []
    by_frame = collections.defaultdict(list)
    for frame, tree in trees(pdml):
        is_silent = tree.own('tc.error') or next((x for x in tree.below if x.name == 'tc.error'), None)
        if is_silent and number(is_silent.show) == 0 and 'acknowledgement' in tree.text:
            count['acknowledgements'] += 1
        elif any(x.name == 'tc.expert.cut' for x in walk(tree)):
            count['cut'] += 1
        else:
            by_frame[frame].append(tree)
    for line, outline in zip(messages(json_text), outlines(outline_text)):
        left = by_frame[line['packet']]
        count['messages'] += 1
        if not left:
            bad.append('packet %d: no tree' % line['packet'])
            continue
        tree = left.pop(0)
        why = answer_differs(line, outline, tree) if 'request' in line else message_differs(line['message'], outline, tree)
        count['leaves'] += len(list(leaves_of_json(line.get('message', {}))))
        count['lines'] += len(outline)
        if why:
            bad.append('packet %d: %s' % (line['packet'], why))
    bad += ['packet %d: a tree more: %s' % (frame, x.text) for frame, left in by_frame.items() for x in left]
    return count, bad


def message_differs(message, outline, tree):
    items = [x for x in tree.below if x.name not in ('tc.family', 'tc.padding', 'tc.index', 'tc.handle', 'tc.parent', 'tc.info')]
    first = tree.text.replace('Linux Traffic Control: ', '', 1)
    if not (first + ' ').startswith((outline[0] + ' ')[:LONGEST]):
        return 'outline %s, tree %s' % (outline[0], first)
    return differs(message, tree.below) or (None if is_kind_late(message) else line_differs(outline[1:], items))


def answer_differs(line, outline, tree):
    below = {x.name: x for x in tree.all}
    request, message = below.get('tc.quoted'), line['request'].get('message')
    error = re.search(r'error: (\S+)', below['tc.error'].text)[1]
    if error != (line['errno'] if line['errno'] != 'warning' else 'ok'):
        return 'errno %s, tree %s' % (line['errno'], error)
    texts = [x for part in tree.below for x in part.below if x.name == 'tc.extack.message']
    if line.get('text') and (not texts or texts[0].show != clean(line['text'])):
        return 'text %s, tree %s' % (line['text'], texts and texts[0].show)
    if 'path' in line and not any('<== ' in x.text for x in walk(request)):
        return 'nothing is marked at %s' % line['path']
    if message is None:
        return None
    request.text = re.sub('^[Rr]equest: ', 'Linux Traffic Control: ', request.text)
    return message_differs(message, [x[2:] for x in outline[1:]], request)


def walk(item):
    yield item
    for x in item.all:
        yield from walk(x)
