"""How the tokens of a source stand together: which bracket closes which, and what is a struct's brace, a match's, a pattern, a test, a
statement or a returned value. It knows the forms that the sources of this repository use, and no more."""

import re

from sources import tokens

OPEN = {"(": ")", "[": "]", "{": "}"}
CLOSE = set(OPEN.values())
KEYWORDS = {"return", "if", "while", "match", "let", "else", "mut", "as", "in", "const", "pub", "fn"}
TYPE_NAME = re.compile(r"[A-Z].*[a-z]|[A-Z]$")


class Shape:
    def __init__(self, text):
        self.text = text
        self.found = tokens(text)
        self.close, self.parent = self._brackets()
        self.matches = {self._head_end(i) for i, token in enumerate(self.found) if token.text == "match"}
        self.patterns = self._patterns()

    def _brackets(self):
        close, parent, stack = {}, [], []
        for i, token in enumerate(self.found):
            if token.text in CLOSE:
                close[stack.pop()] = i
            parent.append(stack[-1] if stack else None)
            if token.text in OPEN:
                stack.append(i)
        return close, parent

    def next(self, i):
        """The index of the token behind the one at `i`, or behind the bracket that it opens."""
        return self.close.get(i, i) + 1

    def children(self, at):
        """The tokens directly inside a bracket; one that opens a bracket stands for all of it."""
        return self.between_brackets(at + 1, self.close[at])

    def between_brackets(self, first, end):
        """The tokens from one to another, without those inside a bracket."""
        while first < end:
            yield first
            first = self.next(first)

    def between(self, first, last):
        """The source from one token to another, both included; a bracket's opening stands for all of it."""
        return self.text[self.found[first].start : self.found[self.close.get(last, last)].end]

    def _head_end(self, i):
        """What stands behind the head of an `if`, a `while` or a `match`: a brace, or the arrow of an arm that has a test."""
        i += 1
        while self.found[i].text not in ("{", "=>"):
            i = self.next(i)
        return i

    def is_struct(self, i):
        """Whether a brace belongs to a struct's expression or pattern."""
        before = self.found[i - 1]
        return self.found[i].text == "{" and before.kind == "word" and bool(TYPE_NAME.match(before.text))

    def is_block(self, i):
        return self.found[i].text == "{" and i not in self.matches and not self.is_struct(i)

    def _patterns(self):
        """All tokens of the patterns of `let` and of the arms of `match`."""
        ranges = [pair for brace in self.matches for pair in self._arm_patterns(brace)]
        for i, token in enumerate(self.found):
            if token.text == "let":
                end = i
                while self.found[end].text not in ("=", ";"):
                    end = self.next(end)
                ranges.append((i, end))
        return {i for first, end in ranges for i in range(first, end)}

    def _arm_patterns(self, brace):
        i = brace + 1
        while i < self.close[brace]:
            first = i
            while self.found[i].text != "=>":
                i = self.next(i)
            yield first, i
            i += 1
            if not self.is_block(i):
                while i < self.close[brace] and self.found[i].text != ",":
                    i = self.next(i)
            else:
                i = self.next(i)
            if self.found[i].text == ",":
                i += 1

    def is_binary(self, i):
        """Whether the operator at `i` has a left operand."""
        before = self.found[i - 1]
        return before.text in (")", "]") or before.kind == "number" or (before.kind == "word" and before.text not in KEYWORDS)

    def items(self, at):
        """The parts between the commas inside a bracket, as pairs of first and last token."""
        result, first, last = [], None, None
        for i in self.children(at):
            if self.found[i].text != ",":
                first, last = (i if first is None else first), i
            elif first is not None:
                result.append((first, last))
                first = None
        return result + ([(first, last)] if first is not None else [])

    def tests(self):
        """The conditions of `if` and `while`, as pairs of first token and what stands behind: a brace, or an arm's arrow."""
        for i, token in enumerate(self.found):
            if token.text in ("if", "while") and self.found[i + 1].text != "let":
                yield i + 1, self._head_end(i)

    def statements(self, brace):
        """The statements of a block that end in a semicolon, as pairs of first token and semicolon."""
        i, first = brace + 1, None
        while i < self.close[brace]:
            first = i if first is None else first
            word = self.found[i].text
            ends_block = self.is_block(i) or i in self.matches
            if word == ";":
                yield first, i
                first = None
            elif ends_block and self.found[first].text in ("if", "while", "match") and self.found[self.next(i)].text != "else":
                first = None
            i = self.next(i)

    def is_returned(self, i):
        """Whether what stands at `i` is part of a `return` or of the last expression of a block or an arm."""
        while self.parent[i] is not None and not (self.is_block(self.parent[i]) or self.parent[i] in self.matches):
            i = self.parent[i]
        if self.parent[i] is None:
            return False
        word, end = self._around(i)
        return word == "return" or (word not in ("let", "if", "while", "match") and end != ";")

    def _around(self, at):
        """The first word of the statement or arm that has the token at `at`, and the sign that ends it."""
        first = None
        inside = self.parent[at]
        for i in self.children(inside):
            word = self.found[i].text
            first = i if first is None else first
            if i > at and (word == ";" or (word == "," and inside in self.matches)):
                return self.found[first].text, word
            if i < at and (word in (";", "=>") or self.is_block(i) or i in self.matches):
                first = None
        return self.found[first].text, "}"
