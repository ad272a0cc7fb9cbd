"""Sources as trees of tokens, without comments, clauses and ghost items; and trees as one line of text."""

import re

PAIRS = {"(": ")", "[": "]", "{": "}"}

TOKEN = re.compile(r"""
    (?P<space>\s+)
  | (?P<doc>//[/!](?!/)[^\n]*)
  | (?P<comment>//[^\n]*)
  | (?P<string>(?:b|c)?r(?P<hashes>\#*)".*?"(?P=hashes) | (?:b|c)?"(?:\\.|[^"\\])*")
  | (?P<char>b?'(?:\\(?:x[0-9A-Fa-f]{2}|u\{[^}]*\}|.)|[^'\\\n])')
  | (?P<lifetime>'[A-Za-z_]\w*)
  | (?P<number>[0-9]\w*(?:\.[0-9]\w*)?)
  | (?P<word>«?[^\W\d]\w*»?)
  | (?P<open>[(\[{])
  | (?P<close>[)\]}])
  | (?P<op>=>|->|::|==|!=|<=|>=|&&|\|\||\.\.=|\.\.\.|\.\.|[-+*/%^|&]=|.)
""", re.VERBOSE | re.DOTALL)


class Node:
    """A token, or a group with the nodes in it. `gap` is what comes before it: nothing, a space or a line break."""

    __slots__ = ("kind", "text", "gap", "items")

    def __init__(self, kind, text, gap, items=None):
        self.kind, self.text, self.gap, self.items = kind, text, gap, items

    def opens(self, bracket):
        return self.kind == "group" and self.text == bracket

    def __eq__(self, text):
        return self.kind != "group" and self.text == text


def behind_block(text, at):
    """Returns the position after a comment that begins here and may contain others."""
    depth = 0
    for mark in re.compile(r"/\*|\*/").finditer(text, at):
        depth += 1 if mark[0] == "/*" else -1
        if depth == 0:
            return mark.end()
    raise ValueError("a comment isn't closed")


def trees(text):
    """Returns the tokens of a source, in groups. Doc comments are tokens too."""
    stack, gap, at = [Node("group", "", "", [])], "line", 0
    while at < len(text):
        if text.startswith("/*", at):
            at, gap = behind_block(text, at), gap or "space"
            continue
        found = TOKEN.match(text, at)
        at = found.end()
        kind, token = found.lastgroup, found[0]
        if kind == "space":
            gap = "line" if "\n" in token else gap or "space"
            continue
        if kind == "comment":
            gap = "line"
            continue
        if kind == "open":
            stack.append(Node("group", token, gap, []))
        elif kind == "close":
            group = stack.pop()
            if not stack or PAIRS[group.text] != token:
                raise ValueError(f"{token} closes nothing")
            stack[-1].items.append(group)
        else:
            stack[-1].items.append(Node(kind, token.strip("«»") if kind == "word" else token, gap))
        gap = ""
    if len(stack) != 1:
        raise ValueError(f"{stack[-1].text} isn't closed")
    return code_of(stack[0].items)


def code_of(nodes):
    """Returns the nodes without clauses and ghost items, at any depth."""
    kept, at = [], 0
    while at < len(nodes):
        node = nodes[at]
        if node.kind == "word" and node.text in ("requires", "ensures"):
            at = after_group(nodes, at)
        elif node.kind == "word" and node.text == "ghost":
            if at + 1 < len(nodes) and nodes[at + 1] == "use":
                while nodes[at] != ";":
                    at += 1
                at += 1
            else:
                at = after_group(nodes, at)
                while at < len(nodes) and nodes[at] == "=":
                    at = after_group(nodes, at)
                if at < len(nodes) and (nodes[at] == ";" or nodes[at] == ","):
                    at += 1
                while kept and (kept[-1] == "pub" or kept[-1].kind == "doc" or kept[-1].opens("(") and is_pub(kept)):
                    kept.pop()
        else:
            if node.kind == "group":
                node = Node("group", node.text, node.gap, code_of(node.items))
            kept.append(node)
            at += 1
    return kept


def is_pub(nodes):
    return len(nodes) > 1 and nodes[-2] == "pub"


def after_group(nodes, at):
    """Returns the position after the next group in braces, or after a `;` before it."""
    while not nodes[at].opens("{") and nodes[at] != ";":
        at += 1
        if at == len(nodes):
            raise ValueError("a clause without braces")
    return at if nodes[at] == ";" else at + 1


def gap_between(before, node):
    """Returns what one line has between two nodes, wherever the source breaks its lines."""
    if node.gap == "space":
        return " "
    if node.gap == "":
        return ""
    if before is None or node.kind != "group" and node.text in (".", "?", ",", ";", "::"):
        return ""
    return "" if before.kind != "group" and before.text in (".", "::", "&", "!") else " "


def line_of(nodes, elided=()):
    """Returns the nodes as one line. The groups at the positions `elided` are only shown to be there."""
    text, before = "", None
    for at, node in enumerate(nodes):
        if node.kind == "doc" or node == "," and at == len(nodes) - 1:
            continue
        text += gap_between(before, node) if text else ""
        if node.kind != "group":
            text += node.text
        elif at in elided:
            text += "{..}"
        elif node.text == "{" and node.items:
            text += "{ " + line_of(node.items) + " }"
        else:
            text += node.text + line_of(node.items) + PAIRS[node.text]
        before = node
    return text


def first_at(nodes, start, end, *texts):
    """Returns the first position in a range that has one of these tokens, or its end."""
    for at in range(start, end):
        if nodes[at].kind != "group" and nodes[at].text in texts:
            return at
    return end


def parted(nodes, separator):
    """Returns the parts between separators."""
    parts, start = [], 0
    for at, node in enumerate(nodes):
        if node == separator:
            parts.append(nodes[start:at])
            start = at + 1
    return parts + ([nodes[start:]] if start < len(nodes) else [])
