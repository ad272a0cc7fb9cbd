"""The position in a source while it is read, and the places that are found there."""

import re

from memory.items import behind_angles
from memory.tokens import first_at, gap_between, line_of

BLOCKS = ("if", "match", "for", "while", "loop", "unsafe")
BEFORE_OPERANDS = ("return", "in", "else", "match", "if", "while", "move", "break", "mut")


class Place:
    """A place where out of memory is returned or capacity is requested: the file, the item, and the code up to the
    place."""

    def __init__(self, part, file, owner, code):
        self.part, self.file, self.owner, self.code = part, file, owner, code
        self.key = part, file, owner, "".join(code.split())


class Frame:
    """The nodes of a statement, or inside another node, and the position in them."""

    def __init__(self, nodes, up=None, is_statement=True):
        self.nodes, self.up, self.is_statement, self.at = nodes, up, is_statement, 0

    def copy(self):
        frame = Frame(self.nodes, self.up and self.up.copy(), self.is_statement)
        frame.at = self.at
        return frame

    def statement(self):
        frame = self
        while not frame.is_statement:
            frame = frame.up
        return frame

    def code(self):
        """Returns the statement as one line, after the beginnings of the statements around it."""
        front, frame = "", self.statement()
        whole = line_of(frame.nodes, [at for at in groups_of(frame.nodes)
                                      if at > frame.at or at < frame.at and frame.nodes[at + 1] == "else"])
        while frame.up:
            frame = frame.up
            front = frame.front() + " { " + front
            frame = frame.statement()
        return front + whole

    def front(self):
        """Returns the statement up to the current node."""
        text = line_of(self.nodes[:self.at], [at for at in groups_of(self.nodes[:self.at])
                                              if self.nodes[at + 1] == "else"])
        if self.is_statement:
            return text
        node = self.up.nodes[self.up.at]
        before = self.up.nodes[self.up.at - 1] if self.up.at else None
        return self.up.front() + gap_between(before, node) + node.text + text


def groups_of(nodes):
    """Returns the positions of groups in braces."""
    return [at for at, node in enumerate(nodes) if node.opens("{")]


def first_group(nodes, start, end):
    """Returns the position of the first group in braces in a range, or its end."""
    while start < end and not nodes[start].opens("{"):
        start += 1
    return start


def words_of(nodes):
    """Returns all names, also those in a text between braces."""
    words = set()
    for node in nodes:
        if node.kind == "group":
            words |= words_of(node.items)
        elif node.kind == "word":
            words.add(node.text)
        elif node.kind == "string":
            words.update(re.findall(r"\{([a-z_]\w*)", node.text))
    return words


def strings_of(nodes):
    for node in nodes:
        if node.kind == "group":
            yield from strings_of(node.items)
        elif node.kind == "string":
            yield node.text


def has_arrow(nodes):
    return any(node == "=>" for node in nodes)


def is_literal(nodes):
    """Returns whether braces contain the fields of a value."""
    return len(nodes) > 0 and (nodes[0] == ".." or len(nodes) > 1 and nodes[0].kind == "word" and (
        nodes[1] == ":" or nodes[1] == ","))


def begins_operand(nodes, at):
    """Returns whether an operand is expected here, so that a bar begins a closure."""
    if at == 0:
        return True
    before = nodes[at - 1]
    if before.kind == "word":
        return before.text in BEFORE_OPERANDS
    return before.kind == "op" and before.text != "?"


def behind_types(nodes, at, end):
    """Returns the position after the types in angle brackets that begin here, or this one if they contain more than
    types."""
    close = behind_angles(nodes, at)
    for node in nodes[at:close]:
        if node.kind in ("string", "number", "char") or node.opens("{") or node.kind == "op" and node.text not in (
                "<", ">", "::", ",", "&", "->", "="):
            return at
    return min(close, end)


def behind_result(nodes, at, end):
    """Returns the position after the return type of a closure."""
    return first_group(nodes, at, end) if at < end and nodes[at] == "->" else at


def end_of_statement(nodes, start):
    at = start
    while nodes[at] == "#" or nodes[at].kind in ("doc", "lifetime") or nodes[at] == ":":
        at += 2 if nodes[at] == "#" else 1
        if at >= len(nodes):
            return len(nodes)
    first = nodes[at]
    is_block = first.opens("{") or first.kind == "word" and first.text in BLOCKS
    while at < len(nodes):
        if nodes[at] == ";":
            return at + 1
        if is_block and nodes[at].opens("{") and (not first == "match" or has_arrow(nodes[at].items)
                                                  or not nodes[at].items):
            follows = nodes[at + 1] if at + 1 < len(nodes) else None
            if follows is None or not (follows == "else" or follows == "." or follows == "?"):
                return at + 1
            is_block = follows == "else"
        at += 1
    return len(nodes)


def is_pattern(nodes, is_inside=False):
    """Returns whether nodes may be a pattern, or the patterns and plain types of a closure: whether they contain
    nothing else."""
    return all(is_pattern(node.items, True) if node.kind == "group" else node.kind != "op" or node.text in (
        "::", "|", "..", "..=", "&", "@", "-", ":") or node.text in (",", "<", ">") and is_inside for node in nodes)


def end_of_arm(nodes, arrow):
    """Returns the position after the value of an arm: after its block, or the last comma before the next arm's
    pattern."""
    next_arrow = first_at(nodes, arrow + 1, len(nodes), "=>")
    first = nodes[arrow + 1]
    if first.opens("{") or first.kind == "word" and first.text in BLOCKS:
        end = end_of_statement(nodes, arrow + 1)
        if end < next_arrow or next_arrow == len(nodes):
            return end
    commas = [at for at in range(arrow, next_arrow) if nodes[at] == ","]
    if next_arrow == len(nodes):
        return len(nodes) - (1 if commas and commas[-1] == len(nodes) - 1 else 0)
    if not commas:
        raise ValueError("an arm without an end")
    return commas[-1]


def ends_with(pattern, variants):
    """Returns whether a pattern is one of these variants, whatever that contains."""
    nodes = pattern[:-1] if pattern and pattern[-1].kind == "group" else pattern
    return bool(nodes) and nodes[-1].kind == "word" and nodes[-1].text in variants


def is_unused(frame, at):
    """Returns whether a call is a statement by itself. If a call may return out of memory, its result has to be
    used."""
    nodes, first = frame.nodes, frame.nodes[0]
    while at < len(nodes) and not nodes[at].opens("("):
        at += 1
    return (frame.is_statement and at + 1 < len(nodes) and nodes[at + 1] == ";" and first_at(nodes, 0, at, "=") == at
            and not (first.kind == "word" and first.text in ("let", "return", "break", *BLOCKS)))
