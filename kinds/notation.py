"""The notation of the files next to this one, which README.md has: reads them into blocks, and reports mistakes with file and line. A mistake is a form, unit,
column, line, block or option that doesn't exist, a name or number that is reserved, too large for its width or in a list, record or enum twice, a kind that is
there twice, and a block that nothing uses. `generate` adds more than 24 parts (blocks, and lists in a layer) in a file."""
import os
import re

HERE = os.path.dirname(os.path.abspath(__file__))
NESTED = 0x8000  # NLA_F_NESTED
NUMBERS = {'u8': ('U8', 1), 'u16': ('U16', 2), 'u32': ('U32', 4), 'u64': ('U64', 8), 's8': ('I8', 1), 's16': ('I16', 2), 's32': ('I32', 4),
           's64': ('I64', 8), 'be16': ('U16Be', 2), 'be32': ('U32Be', 4), 'be64': ('U64Be', 8)}
LEAVES = {'handle': ('Handle', 4), 'flag': ('Flag', 0), 'bool': ('Truth', 1), 'text': ('Text', None), 'bare': ('Bare', None), 'hex': ('Hex', None),
          'mac': ('Mac', 6), 'ipv4': ('Ipv4', 4), 'ipv6': ('Ipv6', 16)}
NAMED = {'struct': ('struct', 'Record'), 'list': ('list', 'List'), 'nested': ('list', 'List'), 'inforce': ('list', 'InForce'), 'own': ('list', 'Own'),
         'choice': ('choice', 'Choice'), 'enum': ('enum', 'Named'), 'bits': ('bits', 'Number')}
UNITS = 'bytes packets bytes/s packets/s kbit/s ns us ms s ticks clock_t percent probability ifindex log2 hex net_hex u32_handle'.split()
COLUMNS = 'names mask end as tc normal when'.split()  # what a line may have after the unit, each with a value, beside `=N`
CHANGES = ['whole', 'keeps']  # what a change of a kind takes
KINDS, MARKS = ['qdisc', 'filter', 'action'], ['raw', 'Other', 'word', 'pad', 'Kind', 'bare']
RESERVED = {'list': MARKS, 'choice': MARKS, 'struct': ['raw', 'rest']}
faults, blocks, kinds, aliases, messages, files, elements = [], {}, [], {}, [], {}, {}

def fault(where, text):
    faults.append('%s:%d: %s' % (where + (text,)))

# what the elements of an array, and the attributes of any type, are called one by one
EACH = {'tc_gred_qopt': 'queue', 'sock_filter': 'op', 'tc_u32_key': 'key', 'tc_pedit_key': 'key', 'can_filter': 'id', 'fq_stats_6_7': 'since',
        'action': 'action', 'cake_tin_stats': 'tin', 'ematch': 'match'}

def snake(name):
    return re.sub(r'(?<=[a-z0-9])(?=[A-Z])', '_', name).lower()

class Form:
    """A form: what it is (a number, a leaf, struct, array ..), the name or number that it is of, the form within it, and a list's layer."""
    def __init__(self, what, of=None, inner=None, layer=''):
        self.what, self.of, self.inner, self.layer = what, of, inner, layer

    def __iter__(self):
        return iter([self] + list(self.inner or []))

class Line:
    """A line of a block: a number, the kernel's name, the name in JSON, the form, the unit, the columns after it, and the comment."""
    def __init__(self, where, name, form=None, number=None, kernel='', unit='', columns=(), **more):
        self.where, self.name, self.form, self.number, self.kernel, self.unit, self.columns = where, name, form, number, kernel, unit, dict(columns)
        self.comment = ''
        self.__dict__.update(more)

    def word(self):
        return self.number | NESTED * (self.form.what == 'nested')

class Block:
    """A block: its sort (struct, list, qdisc ..), its names and its lines, the layers and the width at which it is used, and its parts by layer; of a kind
    what changes of it and of its classes take, and the options with which it is otherwise."""
    def __init__(self, where, sort, words):
        self.where, self.sort, self.words, self.name, self.lines, self.layers, self.bits, self.parts = where, sort, words, words[0], [], [], 32, {}
        self.change, self.classes, self.fixed, self.equal, self.free = None, None, [], [], []

def number(where, text):
    if re.fullmatch(r'0x[0-9a-f]+', text):
        return int(text, 16)
    if not re.fullmatch(r'-?\d+|1<<\d+', text):
        fault(where, 'no number: %s' % text)
    return 1 << int(text[3:]) if text.startswith('1<<') else int(re.sub(r'\D', '', text) or 0) * (-1 if text[0] == '-' else 1)

def read_form(where, words):
    """The form at the front of the words, and the words after it."""
    word, rest = (words + [''])[0], words[1:]
    plural = re.fullmatch(r'(.*)\[(\d*)\]', rest[0] if word == 'struct' and rest else word)
    if plural:
        inner, rest = read_form(where, ['struct', plural[1]] + rest[1:] if word == 'struct' else [plural[1]] + rest)
        return Form('times' if plural[2] else 'array', int(plural[2] or 0), inner), rest
    if word in NUMBERS:
        named = rest[:1] in (['enum'], ['bits']) and len(rest) > 1
        return (Form(rest[0], rest[1], Form('number', word)), rest[2:]) if named else (Form('number', word), rest)
    if word in LEAVES or word == 'kind':
        return Form('kind' if word == 'kind' else 'leaf', word), rest
    if word in ('bytes', 'pad') and rest:
        return Form(word, number(where, rest[0])), rest[1:]
    if word in NAMED and rest:
        layered = word in ('list', 'nested') and rest[1:2] == ['in'] and len(rest) > 2
        return Form(word, rest[0], None, rest[2] if layered else ''), rest[3 if layered else 1:]
    if word == 'indexed':
        inner, rest = read_form(where, rest)
        return Form('indexed', None, inner), rest
    if word not in aliases:
        fault(where, 'no such form: %s' % (word or 'none'))
    return aliases.get(word, Form('leaf', 'hex')), rest if word in aliases else []

def columns_of(where, words):
    """The columns after the unit: `=N`, or a word and its value."""
    columns = {}
    while words:
        column, value = ('=', words[0][1:]) if words[0].startswith('=') else (words[0], ' '.join(words[1:2]))
        if column not in COLUMNS + ['='] or not value or column in columns:
            fault(where, 'not understood: %s' % ' '.join(words))
        columns[column], words = value, words[1 if column == '=' else 2:]
    return columns

def form_and_columns(where, words):
    """The form at the front, the unit and the columns after it."""
    form, rest = read_form(where, words)
    unit = rest[0] if rest[:1] and rest[0] in UNITS else ''
    return form, unit, columns_of(where, rest[1:] if unit else rest)

def only_form(where, words):
    form, rest = read_form(where, words)
    if rest:
        fault(where, 'not understood: %s' % ' '.join(rest))
    return form

def read_change(block, where, words):
    """What a change of a kind takes; true if the words say that."""
    if words[0] == 'change' and len(words) == 2 and words[1] in CHANGES and not block.change:
        block.change = words[1]
    elif words[0] == 'class' and len(words) == 2 and words[1] in CHANGES and not block.classes:
        block.classes = words[1]
    elif words[0] in ('fixed', 'equal', 'free') and len(words) > 1:
        getattr(block, words[0]).extend(words[1:])
    else:
        return False
    return True

def read_line(block, where, words):
    if block.sort in KINDS and words[0] == 'options':
        return Line(where, 'options', only_form(where, words[1:]))
    if block.sort in KINDS and words[0] == 'statistics' and len(words) > 2:
        return Line(where, 'statistics', only_form(where, words[2:]), kernel=words[1])
    if block.sort == 'struct' and len(words) > 1:
        form, unit, columns = form_and_columns(where, words[1:])
        return Line(where, words[0], form, unit=unit, columns=columns)
    if block.sort in ('enum', 'bits', 'names') and len(words) == 3:
        return Line(where, words[2], None, number(where, words[0]), words[1])
    if block.sort == 'list' and len(words) > 3 and words[3] in ('options', 'statistics') and 'else' in words[5:-2]:
        end, at = words.index('else'), (number(where, words[0]), words[1])
        other = Line(where, words[end + 1], only_form(where, words[end + 2:]), *at)
        return Line(where, words[2], Form('by kind', (words[3], words[5:end])), *at, other=other)
    if block.sort == 'list' and len(words) > 3:
        form, unit, columns = form_and_columns(where, words[3:])
        return Line(where, words[2], form, number(where, words[0]), words[1], unit, columns)
    if block.sort == 'choice' and len(words) > 1:
        more = re.fullmatch(r'(?:starts ((?:[0-9a-f]{2})+) )?(?:length (\d+) )?(.*)', ' '.join(words[1:]))
        return Line(where, words[0], only_form(where, more[3].split()), prefix=bytes.fromhex(more[1] or ''), length=more[2])
    return fault(where, 'not understood: %s' % ' '.join(words))

def read(path):
    block = None
    for at, text in enumerate(open(os.path.join(HERE, path), encoding='utf-8'), 1):
        where, words = (path, at), text.split('#')[0].split()
        if not words:
            continue
        if text[0].isspace() and block:
            if block.sort in KINDS and read_change(block, where, words):
                continue
            line = read_line(block, where, words)
            if line:
                line.comment = text.partition('#')[2].strip()
                block.lines.append(line)
        elif words[0] == 'form' and len(words) > 2:
            aliases[words[1]] = only_form(where, words[2:])
        elif words[0] == 'message' and len(words) > 2:
            messages.append((words[1], text.partition('#')[2].strip(), only_form(where, words[2:])))
        elif words[0] in KINDS and len(words) > 1:
            block = Block(where, words[0], words[1:])
            kinds.append(block)
        elif words[0] in ('struct', 'list', 'enum', 'bits', 'names', 'choice') and len(words) == 2:
            block = Block(where, words[0], words[1:])
            if blocks.setdefault((block.sort, block.name), block) is not block:
                fault(where, 'a second %s %s' % (block.sort, block.name))
        else:
            fault(where, 'not understood: %s' % text.strip())

def named(form):
    """The block that a form names."""
    return blocks.get((NAMED[form.what][0], form.of)) if form.what in NAMED else None

def width(form, seen=()):
    """How many bytes a form takes, where that is fixed."""
    if form.what in ('number', 'enum', 'bits'):
        return NUMBERS[(form.inner or form).of][1]
    if form.what in ('leaf', 'bytes', 'pad'):
        return LEAVES[form.of][1] if form.what == 'leaf' else form.of
    within = [width(form.inner, seen)] * form.of if form.what == 'times' else [None]
    if form.what == 'struct' and named(form) and form.of not in seen:
        within = [width(x.form, seen + (form.of,)) for x in named(form).lines]
    return None if None in within else sum(within)

def twice(what, lines, values):
    for i, value in enumerate(values):
        if value in values[:i]:
            fault(lines[i].where, 'a second %s %s: that of %s:%d' % ((what, value) + lines[values.index(value)].where))

def check_use(where, form):
    """That what a form names is there, and that the numbers of an enum have room."""
    for f in form:
        block = named(f)
        if f.what in NAMED and not block:
            fault(where, 'no such %s: %s' % (NAMED[f.what][0], f.of))
        elif block and f.inner:
            bits, lowest = 8 * NUMBERS[f.inner.of][1], min(x.number for x in block.lines)
            if max(x.number for x in block.lines) >> bits or lowest < -(1 << bits - 1) or lowest < 0 and block.layers and block.bits != bits:
                fault(where, '%s %s has a number that %s has no room for' % (block.sort, f.of, f.inner.of))
            block.bits = bits
        if block and f.layer not in block.layers:
            block.layers.append(f.layer)

def check_columns(block, x):
    """That what a line's columns name is there: names, and the line before it whose mask or end it is. That only a number has a unit."""
    if x.unit and x.form.what == 'enum':
        fault(x.where, 'an enum has no unit: %s' % x.unit)
    names = blocks.get(('names', x.columns.get('names')))
    if 'names' in x.columns and not names:
        fault(x.where, 'no such names: %s' % x.columns['names'])
    elif names:
        names.layers.append('')
    for what in ('mask', 'end'):
        if what in x.columns and x.columns[what] not in [y.name for y in block.lines if y is not x]:
            fault(x.where, 'no such line: %s' % x.columns[what])

def is_rate(line):
    """True if the line is a record with a rate, and has a word."""
    return line.form.of == 'tc_ratespec' and line.columns.get('tc', '%')[0] not in '%-;'

def check_word(block, x):
    """That what the column `tc` refers to is there, and that `=` has a number."""
    word = x.columns.get('tc', '')
    names = [y.name for y in block.lines if y is not x]
    in_file = ['', 'protocol'] + [y.name for b in blocks.values() if b.where[0] == block.where[0] for y in b.lines if y is not x]
    if word[:1] == '/' and word[1:] not in names or word[:1] == '-' and word[1:] not in in_file:
        fault(x.where, 'no such line: %s' % word[1:])
    if word[:1] == '^' and word[1:] not in [y.columns['tc'] for b in blocks.values() if b.sort == 'struct' for y in b.lines if is_rate(y)]:
        fault(x.where, 'no rate with the word %s' % word[1:])
    if '@' in word and word.split('@')[1] not in [y.columns['tc'] for y in block.lines if is_rate(y)]:
        fault(x.where, 'no rate with the word %s' % word.split('@')[1])
    if '|' in word and x.form.what == 'enum' and named(x.form) and word.count('|') > max(y.number for y in named(x.form).lines):
        fault(x.where, 'enum %s has no number %d, for the word %s' % (x.form.of, word.count('|'), word.split('|')[-1]))
    if '=' in x.columns and not re.fullmatch(r'(\d+|0-\d+);?', x.columns['=']):
        fault(x.where, 'no number: %s' % x.columns['='])

def check_fixed(kind):
    """That the options of which lines about a change tell are attributes of the kind's list."""
    options = [named(x.form) for x in kind.lines if x.name == 'options']
    for name in kind.fixed + kind.equal + kind.free:
        if name not in [x.name for block in options if block for x in block.lines]:
            fault(kind.where, 'no such option: %s' % name)

def check(block):
    for x in block.lines:
        for y in ([x] if x.form else []) + ([x.other] if hasattr(x, 'other') else []):
            check_use(y.where, y.form)
        if x.name in RESERVED.get(block.sort, []) and x.form.what != 'kind':
            fault(x.where, 'the name %s is reserved' % x.name)
        if block.sort == 'struct' and x is not block.lines[-1] and width(x.form, (block.name,)) is None:
            fault(x.where, 'a field without a fixed width that is not the last')
        if block.sort == 'list' and not 0 < x.number < 0x4000:
            fault(x.where, 'an attribute has no type %d' % x.number)
        check_columns(block, x)
        check_word(block, x)
    for what in ['name'] + (['number', 'kernel'] if block.sort in ('list', 'enum', 'bits', 'names') else []):
        twice('name' if what == 'kernel' else what, block.lines, [getattr(x, what) for x in block.lines])

def check_all():
    for block in list(blocks.values()) + kinds:
        check(block)
    for kind in kinds:
        check_fixed(kind)
    for name, form in [(m[0], m[2]) for m in messages] + list(aliases.items()):
        check_use((name, 0), form)
    for of in (['qdisc', 'filter'], ['action']):
        names = [(k, name) for k in kinds if k.sort in of for name in k.words]
        twice('kind', [k for k, _ in names], [name for _, name in names])
    for block in blocks.values():
        if not block.layers:
            fault(block.where, 'nothing uses %s %s' % (block.sort, block.name))

def read_all():
    paths = sorted(os.path.relpath(os.path.join(folder, name), HERE) for folder, _, names in os.walk(HERE) for name in names)
    own = [p for p in paths if not (os.path.basename(p).startswith('.') or p.endswith('~'))]  # no files that editors leave
    for path in [p for p in own if p not in ('generate', 'news', 'news.txt', 'notation.py', 'prove', 'columns', 'words', 'changes', 'interfaces', 'wireshark', 'wireshark-c', 'README.md')]:
        read(path)
    if not faults:
        check_all()
