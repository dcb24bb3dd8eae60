"""The single changes that can be made to the code of a library crate. Each keeps the shape of the code as far as its kind allows, and
touches neither a contract nor a definition."""

import re
from dataclasses import dataclass
from pathlib import Path

import sources
from shape import KEYWORDS, Shape

TURNED = {"<": ">", ">": "<", "<=": ">=", ">=": "<=", "==": "!=", "!=": "=="}
OPPOSITE = {"<": ">=", ">": "<=", "<=": ">", ">=": "<", "==": "!=", "!=": "=="}
SHIFTED = {"<": "<=", "<=": "<", ">": ">=", ">=": ">"}
OTHER_OPERATOR = {
    "+": ("-", "*"),
    "-": ("+",),
    "*": ("/", "+"),
    "/": ("*", "%"),
    "%": ("/",),
    "+=": ("-=",),
    "-=": ("+=",),
    "&": ("|",),
    "|": ("&",),
}
# What ends an operand of a connective, besides a connective of its own kind and the end of the bracket or the test.
ENDS_OPERAND = {
    "&&": {"||"},
    "||": set(),
    "&": {"|", "&&", "||", *TURNED},
    "|": {"&&", "||", *TURNED},
}
ENDS_EXPRESSION = {";", ",", "=", "=>", "return", "if", "while", "match"}
LITERAL = re.compile(r"(0x)?([0-9a-fA-F_]+?)((?:u|i)(?:8|16|32|64|size))?")

COMPARISON_TURNED = "comparison turned"
COMPARISON_SHIFTED = "comparison shifted by one"
NUMBER = "number off by one"
NAMED_NUMBER = "named number off by one"
OPERATOR = "other operator"
SWAPPED = "neighbours swapped"
FIXED = "argument fixed"
RETURNED = "returned value changed"
DROPPED = "part of a test dropped"
NEGATED = "test negated"
LEFT_OUT = "write left out"


@dataclass(frozen=True)
class Change:
    crate: str
    # The function, or the named number, whose code is changed; the functions of a crate are drawn from in turn, and so is `NUMBERS`.
    owner: str
    group: str
    kind: str
    file: Path
    line: int
    # The source from `start` to `end` becomes `new`.
    start: int
    end: int
    new: str
    # The changed lines before and after.
    before: str
    after: str
    # Whether other crates see the number that is changed.
    public_number: bool = False

    @property
    def place(self):
        return f"{self.file.relative_to(sources.ROOT)}:{self.line}"

    @property
    def key(self):
        return (self.crate, self.owner, self.kind, self.place, self.before, self.after)

    def applied(self, text):
        return text[: self.start] + self.new + text[self.end :]


# The group of all named numbers of a crate.
NUMBERS = "(named numbers)"


def off_by_one(literal):
    """The literals one above and one below, in the same notation."""
    match = LITERAL.fullmatch(literal)
    hexadecimal, digits, suffix = match.groups()
    number = int(digits.replace("_", ""), 16 if hexadecimal else 10)
    results = []
    for other in (number + 1, number - 1):
        if other < 0:
            continue
        written = f"{other:0{len(digits.replace('_', ''))}x}" if hexadecimal else str(other)
        if "_" in digits:
            written = re.sub(r"(?<=.)(?=(?:.{4})+$)", "_", written)
        results.append((hexadecimal or "") + written + (suffix or ""))
    return results


def is_number(shape, i):
    return shape.found[i].kind == "number" and shape.found[i - 1].text != "."


def is_part_of_shift(shape, i):
    """Whether a `<` or a `>` is half of a shift."""
    token = shape.found[i]
    return any(
        other.text == token.text and (other.end == token.start or token.end == other.start)
        for other in (shape.found[i - 1], shape.found[i + 1])
    )


def comparisons(shape, i):
    token = shape.found[i]
    if token.text not in TURNED or is_part_of_shift(shape, i):
        return
    yield COMPARISON_TURNED, token.start, token.end, TURNED[token.text]
    if token.text in SHIFTED:
        yield COMPARISON_SHIFTED, token.start, token.end, SHIFTED[token.text]


def numbers(shape, i):
    token = shape.found[i]
    truth = token.text in ("true", "false")
    if not (truth or is_number(shape, i)):
        return
    kind = RETURNED if i not in shape.patterns and shape.is_returned(i) else NUMBER
    if not truth:
        for other in off_by_one(token.text):
            yield kind, token.start, token.end, other
    elif kind == RETURNED:
        yield kind, token.start, token.end, "false" if token.text == "true" else "true"


def letters(shape, i):
    """The first letter of a text becomes the next one."""
    token = shape.found[i]
    if token.kind == "text" and token.text[2].isalnum():
        yield NUMBER, token.start, token.end, token.text[:2] + chr(ord(token.text[2]) + 1) + token.text[3:]


def operators(shape, i):
    token = shape.found[i]
    if token.text in OTHER_OPERATOR and i not in shape.patterns and shape.is_binary(i):
        for other in OTHER_OPERATOR[token.text]:
            yield OPERATOR, token.start, token.end, other
    elif token.text == ">" and is_part_of_shift(shape, i) and shape.found[i + 1].text == ">":
        yield OPERATOR, token.start, shape.found[i + 1].end, "<<"


def is_call(shape, i):
    """Whether a bracket holds the arguments of a call."""
    before = shape.found[i - 1]
    return shape.found[i].text == "(" and before.kind == "word" and before.text not in KEYWORDS and i not in shape.patterns


def fixed_arguments(shape, i):
    """An argument that is a variable becomes 0, or `false` where it is a truth; what is lent stays."""
    for first, last in shape.items(i) if is_call(shape, i) else []:
        token = shape.found[first]
        if first != last or token.kind != "word" or not token.text[0].islower() or token.text in ("true", "false"):
            continue
        types = set(re.findall(rf"\b{token.text}: (bool|&)?", shape.text))
        if "&" not in types:
            yield FIXED, token.start, token.end, "false" if types == {"bool"} else "0"


def swapped_items(shape, i):
    """Neighbouring arguments of a call, and neighbouring elements of an array."""
    is_array = shape.found[i].text == "[" and not shape.is_binary(i)
    if i in shape.patterns or not (is_call(shape, i) or is_array):
        return
    items = shape.items(i)
    for (a, a_end), (b, b_end) in zip(items, items[1:]):
        first, second = shape.between(a, a_end), shape.between(b, b_end)
        if first != second:
            between = shape.text[shape.found[shape.close.get(a_end, a_end)].end : shape.found[b].start]
            start, end = shape.found[a].start, shape.found[shape.close.get(b_end, b_end)].end
            yield SWAPPED, start, end, second + between + first


def swapped_fields(shape, i):
    """Neighbouring fields of a struct's expression: the values change places, the names stay."""
    if i in shape.patterns or not shape.is_struct(i):
        return
    fields = []
    for first, last in shape.items(i):
        value = shape.between(first + 2, last) if first != last else shape.found[first].text
        fields.append((first, last, value))
    for (a, a_end, a_value), (b, b_end, b_value) in zip(fields, fields[1:]):
        if a_value != b_value:
            between = shape.text[shape.found[shape.close.get(a_end, a_end)].end : shape.found[b].start]
            start, end = shape.found[a].start, shape.found[shape.close.get(b_end, b_end)].end
            yield SWAPPED, start, end, f"{shape.found[a].text}: {b_value}{between}{shape.found[b].text}: {a_value}"


def dropped_operands(shape, i):
    """One operand of a connective of two truths left out. Where it joins numbers, the front end or the prover says so."""
    connective = shape.found[i].text
    if connective not in ENDS_OPERAND or i in shape.patterns or not shape.is_binary(i):
        return
    ends = ENDS_OPERAND[connective] | ENDS_EXPRESSION | {connective}
    left, right = i, i + 1
    while left - 1 > (shape.parent[i] or 0) and shape.found[left - 1].text not in ends | {"{"}:
        left -= 1
        if shape.found[left].text in (")", "]"):
            left = next(start for start, end in shape.close.items() if end == left)
    while shape.found[right].text not in ends | {"{", "}", ")", "]"}:
        right = shape.next(right)
    start, end = shape.found[left].start, shape.found[right - 1].end
    yield DROPPED, start, end, shape.text[shape.found[i + 1].start : end]
    yield DROPPED, start, end, shape.text[start : shape.found[i - 1].end]


def negated_tests(shape, inside):
    """A comparison becomes its opposite, which keeps the form of what is known behind it; another test gets a `!`, or loses it."""
    for first, brace in shape.tests():
        if first not in inside:
            continue
        signs = [i for i in shape.between_brackets(first, brace) if shape.found[i].text in (*OPPOSITE, *ENDS_OPERAND)]
        start, end = shape.found[first].start, shape.found[brace - 1].end
        if len(signs) == 1 and shape.found[signs[0]].text in OPPOSITE:
            sign = shape.found[signs[0]]
            yield NEGATED, sign.start, sign.end, OPPOSITE[sign.text]
        elif not signs and shape.found[first].text == "!":
            yield NEGATED, start, end, shape.text[start + 1 : end]
        else:
            yield NEGATED, start, end, f"!({shape.text[start:end]})"


def writes_left_out(shape, i):
    """A statement that writes is left out. Where a variable is written, the shape stays: it keeps its value."""
    if not shape.is_block(i):
        return
    for first, end in shape.statements(i):
        variable, sign = shape.found[first], shape.found[first + 1].text
        if variable.text in ("let", "return", "if", "while", "match"):
            continue
        if sign in ("=", "+=", "-="):
            yield LEFT_OUT, shape.found[first + 2].start, shape.found[end - 1].end, variable.text if sign == "=" else "0"
        else:
            yield LEFT_OUT, variable.start, shape.found[end].end, ""


IN_BODIES = (writes_left_out, comparisons, numbers, letters, operators, swapped_items, fixed_arguments, swapped_fields, dropped_operands)


def changes_of_body(shape, start, end):
    """All changes to the body that stands from `start` to `end`."""
    inside = {i for i, token in enumerate(shape.found) if start <= token.start < end}
    for i in sorted(inside):
        for kind in IN_BODIES:
            yield from kind(shape, i)
    yield from negated_tests(shape, inside)


def named_numbers(shape):
    """The constants outside functions: name, whether other crates see it, first token of its value, the semicolon behind it."""
    kind, kind_end = "", 0
    i = 0
    while i < len(shape.found):
        kind = kind if i < kind_end else ""
        word = shape.found[i].text
        if word == "impl":
            kind, _, _, opening = sources.owner_of(shape.found, i)
            kind_end = shape.close[opening]
        elif word == "const":
            value = i
            while shape.found[value].text not in ("=", ";", ">"):
                value = shape.next(value)
            if shape.found[value].text != "=":
                # A parameter, or the constant of a trait, which has no value.
                i = value + 1
                continue
            end = value
            while shape.found[end].text != ";":
                end = shape.next(end)
            yield kind + shape.found[i + 1].text, shape.found[i - 1].text == "pub", value + 1, end
            i = end
        i += 1


def changes_of_number(shape, first, end):
    """All changes to the value of a constant: its numbers, its operators, and the names that stand in a table."""
    for i in range(first, end):
        token = shape.found[i]
        in_table = shape.parent[i] is not None and shape.found[shape.parent[i]].text == "["
        if is_number(shape, i):
            for other in off_by_one(token.text):
                yield NAMED_NUMBER, token.start, token.end, other
        elif in_table and token.kind == "word":
            yield NAMED_NUMBER, token.start, token.end, token.text + " + 1"
        else:
            yield from operators(shape, i)


def shown(text):
    return " ".join(text.split()) or "(left out)"


def made(crate, owner, group, file, text, found, public_number=False):
    kind, start, end, new = found
    line_start = text.rfind("\n", 0, start) + 1
    line_end = text.find("\n", end)
    before, after = text[line_start:line_end], text[line_start:start] + new + text[end:line_end]
    line = text.count("\n", 0, start) + 1
    return Change(crate, owner, group, kind, file, line, start, end, new, shown(before), shown(after), public_number)


def of_crate(crate, root=sources.ROOT):
    """All changes to a library crate, none twice that gives the same text."""
    once, functions = {}, sources.functions(crate, root)
    files = [root / "crates" / crate / "src" / "lib.rt"]
    files += [function.file for function in functions if function.file not in files]
    for file in sorted(set(files)):
        text = file.read_text()
        for change in changes_of_file(crate, file, text, [f for f in functions if f.file == file]):
            once.setdefault((file, change.applied(text)), change)
    return list(once.values())


def changes_of_file(crate, file, text, functions):
    shape = Shape(text)
    for function in functions:
        for found in changes_of_body(shape, function.body, function.end):
            yield made(crate, function.path, function.path, file, text, found)
    for name, public, first, end in named_numbers(shape):
        for found in changes_of_number(shape, first, end):
            yield made(crate, name, NUMBERS, file, text, found, public)
