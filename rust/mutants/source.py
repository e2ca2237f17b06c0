"""Functions of Rust files, and changes of their bodies. A mutant is the body of a function with one change; the switch in front of it chooses."""

import re
from dataclasses import dataclass

TOKEN = re.compile(
    r'//[^\n]*|b?r##".*?"##|b?r#".*?"#|b?"(?:\\.|[^"\\])*"|b?\'(?:\\.[^\']*|[^\'\\])\'|\'\w+|\w+|\s+'
    r"|==|!=|<=|>=|&&|\|\||->|=>|\.\.=|\.\.|::|<<|>>|[-+*/%&|^]=|.",
    re.S,
)
NUMBER = re.compile(r"(0x)?([0-9a-fA-F_]+?)((?:[iu](?:8|16|32|64|128|size))?)$")
OPENED, CLOSED = "([{", ")]}"
OPERATORS = {"==": ["!="], "!=": ["=="], "<": ["<=", ">"], "<=": ["<"], ">": [">=", "<"], ">=": [">"], "&&": ["||"], "||": ["&&"]}
ARITHMETIC = {"+": ["-"], "-": ["+"], "*": ["+"], "/": ["*"], "%": ["/"], "&": ["|"], "|": ["&"], "<<": [">>"], ">>": ["<<"]}
WORDS = {
    "true": "false", "false": "true", "is_some": "is_none", "is_none": "is_some", "is_ok": "is_err", "is_err": "is_ok", "min": "max", "max": "min",
    "any": "all", "all": "any", "first": "last", "last": "first", "saturating_sub": "saturating_add", "saturating_add": "saturating_sub",
    "starts_with": "ends_with", "ends_with": "starts_with", "from_le_bytes": "from_be_bytes", "from_be_bytes": "from_le_bytes",
    "to_le_bytes": "to_be_bytes", "to_be_bytes": "to_le_bytes", "wrapping_add": "wrapping_sub", "wrapping_sub": "wrapping_add",
}


@dataclass(frozen=True)
class Change:
    """A range of a file's characters, and what takes their place."""

    start: int
    end: int
    text: str
    what: str


@dataclass(frozen=True)
class Function:
    name: str
    returns: str
    at: int  # of the word `fn`
    start: int  # of the body's brace
    end: int  # after the other brace


def tokens_of(text):
    """Each token that is no blank and no comment, and where it is."""
    found = ((it[0], it.start()) for it in TOKEN.finditer(text))
    return [(token, at) for token, at in found if not token.isspace() and not token.startswith("//")]


def closing(tokens, at):
    """The index of the token that closes the group that this one opens."""
    depth = 0
    for i in range(at, len(tokens)):
        depth += (tokens[i][0] in OPENED) - (tokens[i][0] in CLOSED)
        if depth == 0:
            return i
    return len(tokens) - 1


def functions_of(tokens):
    """The outermost functions with a body that isn't constant."""
    i, found = 0, []
    while i < len(tokens):
        if tokens[i][0] == "cfg" and tokens[i + 2][0] == "test":
            break
        if tokens[i][0] != "fn" or not re.match(r"\w", tokens[i + 1][0]):
            i += 1
            continue
        is_const = any(tokens[j][0] == "const" for j in range(max(0, i - 3), i) if tokens[i - 1][0] in ("const", "unsafe", "extern"))
        name, j, arrow = tokens[i + 1][0], i + 2, None
        while j < len(tokens) and tokens[j][0] not in ("{", ";"):
            if tokens[j][0] == "->":
                arrow = j
            j = closing(tokens, j) + 1 if tokens[j][0] in "([" else j + 1
        if j < len(tokens) and tokens[j][0] == "{":
            end = closing(tokens, j)
            returns = " ".join(it for it, _ in tokens[arrow + 1 : j]).split(" where ")[0] if arrow else ""
            if not is_const:
                found.append(Function(name, returns, tokens[i][1], tokens[j][1], tokens[end][1] + 1))
            j = end
        i = j + 1
    return found


def defaults_of(returns):
    """What a function may return instead of all that it does."""
    if not returns:
        return ["{}"]
    if returns == "bool":
        return ["{ true }", "{ false }"]
    if returns.startswith("Option"):
        return ["{ None }"]
    if returns.startswith("Result"):
        return ["{ Ok(Default::default()) }"]
    if returns.startswith("impl"):
        return []
    return ["{ Default::default() }"]


def other_number(token):
    """Another number, with its suffix and in the same base."""
    number = NUMBER.match(token)
    if not number or not token[0].isdigit():
        return []
    base = 16 if number[1] else 10
    try:
        value = int(number[2], base)
    except ValueError:
        return []
    return [f"{other:#x}{number[3]}" if number[1] else f"{other}{number[3]}" for other in (value + 1, value - 1) if other >= 0]


def other_text(token):
    """Another text or character of the same length, or an empty text."""
    head, quote = ("b", token[1]) if token[0] == "b" else ("", token[0])
    inner = token[len(head) + 1 : -1]
    if quote == "r" or token[0] == "r" or not inner:
        return []
    if quote == "'":
        return [f"{head}'{'y' if inner == 'x' else 'x'}'"]
    if inner[0] == "\\" or "{" in inner:
        return []
    return [f'{head}"{"y" if inner[0] == "x" else "x"}{inner[1:]}"'] + ([] if head else ['""'])


def arguments_of(tokens, opened):
    """Where each argument of a call begins and ends."""
    end, start, found, i = closing(tokens, opened), opened + 1, [], opened + 1
    while i < end:
        if tokens[i][0] in OPENED:
            i = closing(tokens, i)
        elif tokens[i][0] == ",":
            found.append((start, i - 1))
            start = i + 1
        i += 1
    return found + ([(start, end - 1)] if start < end else [])


def of_token(text, tokens, i, of):
    """The changes of one token."""
    token, at = tokens[i]
    before, after = tokens[i - 1][0], tokens[i + 1][0] if i + 1 < len(tokens) else ""
    is_binary = re.match(r"[\w)\]]", before) and before not in ("return", "in", "if", "match", "mut", "as")
    one = lambda new, what: Change(at, at + len(token), new, what)
    if token in OPERATORS:
        yield from (one(new, "comparison") for new in OPERATORS[token])
    elif token in ARITHMETIC and is_binary:
        yield from (one(new, "arithmetic") for new in ARITHMETIC[token])
    elif token in WORDS:
        yield one(WORDS[token], "word")
    elif token[0].isdigit() and before != ".":
        yield from (one(new, "number") for new in other_number(token))
    elif token[0] in "\"'b" and token[-1] in "\"'" and len(token) > 2:
        yield from (one(new, "text") for new in other_text(token))
    elif token == "if" and after != "let":
        brace = i + 1
        while tokens[brace][0] not in ("{", "=>"):
            brace = closing(tokens, brace) + 1 if tokens[brace][0] in "([" else brace + 1
        condition = text[tokens[i + 1][1] : tokens[brace][1]].rstrip()
        if " let " not in condition:
            yield Change(tokens[i + 1][1], tokens[i + 1][1] + len(condition), f"!({condition})", "condition")
    elif token == "(" and re.match(r"\w", before) and before not in ("if", "match", "while", "in", "return"):
        arguments = arguments_of(tokens, i)
        end = lambda it: tokens[it][1] + len(tokens[it][0])
        if len(arguments) > 1:
            (a, b), (c, d) = arguments[:2]
            left, right = text[tokens[a][1] : end(b)], text[tokens[c][1] : end(d)]
            if left != right:
                yield Change(tokens[a][1], end(d), text[tokens[c][1] : end(d)] + text[end(b) : tokens[c][1]] + left, "arguments")
    elif token == ";":
        yield from of_statement(text, tokens, i, of)


def of_statement(text, tokens, i, of):
    """A call whose value nobody takes, left out."""
    j = i - 1
    while tokens[j][1] > of.start and tokens[j][0] not in ("{", ";", "}", "=>"):
        if tokens[j][0] in ")]":
            depth = 1
            while depth:
                j -= 1
                depth += (tokens[j][0] in CLOSED) - (tokens[j][0] in OPENED)
        j -= 1
    first = tokens[j + 1]
    if j + 1 < i and first[0] not in ("let", "return", "break", "continue", "use", "const", "type") and first[1] > of.start:
        yield Change(first[1], tokens[i][1] + 1, "", "statement")


def changes_of(text):
    """Each function with each change of it."""
    tokens = tokens_of(text)
    for of in functions_of(tokens):
        for new in defaults_of(of.returns):
            yield of, Change(of.start, of.end, new, "default")
        for i, (_, at) in enumerate(tokens):
            if of.start < at < of.end - 1:
                yield from ((of, it) for it in of_token(text, tokens, i, of))


def line_of(text, at):
    return text.count("\n", 0, at) + 1


def changed_body(text, of, change):
    """The body of a function after a change."""
    return text[of.start : change.start] + change.text + text[change.end : of.end]


def with_mutants(text, mutants):
    """A file with a switch in front of each of these functions, and the lines of each changed body. A mutant is its number, a function and a change."""
    by_function, out, at, lines = {}, [], 0, {}
    for number, of, change in mutants:
        by_function.setdefault(of, []).append((number, change))
    for of in sorted(by_function, key=lambda it: it.start):
        out.append(text[at : of.start])
        out.append("{")
        for number, change in by_function[of]:
            out.append(f"if crate::mutant::is({number}) ")
            first = line_of("".join(out), sum(map(len, out)))
            out.append(changed_body(text, of, change))
            lines[number] = (first, line_of("".join(out), sum(map(len, out))))
            out.append(" else ")
        out.append(text[of.start : of.end] + "}")
        at = of.end
    return "".join(out) + text[at:], lines
