"""The items of a source, from its tokens: functions, impls, enums, uses and the like."""

from memory.tokens import first_at

KINDS = ("fn", "impl", "trait", "mod", "enum", "struct", "union", "const", "static", "type", "use", "macro_rules")
MODIFIERS = ("pub", "const", "unsafe", "async", "extern", "final", "default")


class Item:
    """An item: its kind and name, its attributes, the nodes of its head, its body in braces, and where it ends."""

    def __init__(self, kind, name, attributes, head, body, end):
        self.kind, self.name, self.attributes = kind, name, attributes
        self.head, self.body, self.end = head, body, end


def item_at(nodes, start):
    """Returns the item that begins here, or None if a statement begins here."""
    attributes, at = [], start
    while at + 1 < len(nodes) and nodes[at] == "#":
        at += 2 if nodes[at + 1] == "!" else 1
        attributes.append(nodes[at])
        at += 1
    head = at
    while at < len(nodes) and (nodes[at].kind == "doc" or nodes[at].kind == "word" and nodes[at].text in MODIFIERS
                               or nodes[at].kind == "string" and nodes[at - 1] == "extern"
                               or nodes[at].opens("(") and nodes[at - 1] == "pub"):
        if nodes[at] == "const" and not (nodes[at + 1].kind == "word" and nodes[at + 1].text in (*MODIFIERS, "fn")):
            break
        if nodes[at].kind == "doc" and at + 1 < len(nodes) and nodes[at + 1] == "#":
            return with_attributes(attributes, item_at(nodes, at + 1))
        at += 1
    if at == len(nodes):
        return Item("end", "", attributes, [], None, at) if all(node.kind == "doc" for node in nodes[head:]) else None
    kind = nodes[at].text if nodes[at].kind == "word" else ""
    if kind not in KINDS or kind == "const" and nodes[at + 1].opens("{"):
        return call_at(nodes, at, attributes) if at == head else None
    if kind == "macro_rules":
        return Item(kind, nodes[at + 2].text, attributes, nodes[head:at + 3], nodes[at + 3], at + 4)
    name = nodes[at + 1].text if kind != "impl" and nodes[at + 1].kind == "word" else ""
    if kind in ("const", "static", "type", "use"):
        end = first_at(nodes, at, len(nodes), ";")
        return Item(kind, name, attributes, nodes[head:end], None, end + 1)
    end = at
    while end < len(nodes) and not nodes[end].opens("{") and nodes[end] != ";":
        end += 1
    body = nodes[end] if end < len(nodes) and nodes[end].opens("{") else None
    return Item(kind, name, attributes, nodes[head:end], body, end + 1)


def with_attributes(attributes, item):
    if item is not None:
        item.attributes = attributes + item.attributes
    return item


def call_at(nodes, at, attributes):
    """Returns a call of a macro that is an item by itself."""
    if at + 2 < len(nodes) and nodes[at].kind == "word" and nodes[at + 1] == "!" and nodes[at + 2].opens("{"):
        return Item("call", nodes[at].text, attributes, [], nodes[at + 2], at + 3)
    return None


def items_of(nodes):
    """Yields the items in a module, a trait or an impl."""
    at = 0
    while at < len(nodes):
        if nodes[at].kind == "doc" or nodes[at] == ";":
            at += 1
            continue
        item = item_at(nodes, at)
        if item is None and nodes[at].kind == "word" and at + 2 < len(nodes) and nodes[at + 1] == "!":
            item = Item("call", nodes[at].text, [], [], nodes[at + 2], at + 3)
        if item is None:
            raise ValueError(f"no item begins with {nodes[at].text}")
        yield item
        at = item.end


def behind_angles(nodes, at):
    """Returns the position after `<..>`, if that begins here."""
    depth = 0
    while at < len(nodes):
        if nodes[at].kind == "op" and nodes[at].text in ("<", ">"):
            depth += 1 if nodes[at].text == "<" else -1
        at += 1
        if depth == 0:
            return at
    return at


def type_name(nodes):
    """Returns the last name of a path, without the part in angle brackets; an empty text for other types."""
    name = ""
    for node in nodes:
        if node == "<" or node == "where":
            break
        if node.kind == "word" and node.text not in ("mut", "dyn"):
            name = node.text
    return name


def impl_of(item):
    """Returns, for an impl, the name of its trait, the nodes of the trait's arguments, and the name of its type."""
    nodes = item.head
    at = first_at(nodes, 0, len(nodes), "impl") + 1
    if at < len(nodes) and nodes[at] == "<":
        at = behind_angles(nodes, at)
    split = first_at(nodes, at, len(nodes), "for")
    if split == len(nodes):
        return "", [], type_name(nodes[at:])
    angle = first_at(nodes, at, split, "<")
    return type_name(nodes[at:split]), nodes[angle + 1:split - 1], type_name(nodes[split + 1:])


def parameters_of(item):
    """Returns the names and types of a function's parameters, in order."""
    nodes = item.head
    at = first_at(nodes, 0, len(nodes), "fn") + 2
    if at < len(nodes) and nodes[at] == "<":
        at = behind_angles(nodes, at)
    found, start = [], 0
    inside = nodes[at].items if at < len(nodes) and nodes[at].opens("(") else []
    depth = 0
    for place in range(len(inside) + 1):
        if place < len(inside) and inside[place].kind == "op" and inside[place].text in ("<", ">"):
            depth += 1 if inside[place].text == "<" else -1
        if place == len(inside) or depth == 0 and inside[place] == ",":
            part = inside[start:place]
            start = place + 1
            if part:
                colon = first_at(part, 0, len(part), ":")
                found.append(([node.text for node in part[:colon] if node.kind == "word"], part[colon + 1:]))
    return found


def variants_of(item):
    """Yields the variants of an enum: name, doc comment, attributes and payload."""
    docs, attributes, at, nodes = "", [], 0, item.body.items
    while at < len(nodes):
        node = nodes[at]
        if node.kind == "doc":
            docs += node.text
        elif node == "#":
            at += 1
            attributes.append(nodes[at])
        elif node.kind == "word":
            end = first_at(nodes, at, len(nodes), ",")
            yield node.text, docs, attributes, nodes[at + 1:end]
            docs, attributes, at = "", [], end
        at += 1


def leaves_of(nodes, path=()):
    """Yields, for a tree of uses, each path and the name that it gets."""
    for part in parted_by_commas(nodes):
        steps = list(path)
        for at, node in enumerate(part):
            if node.opens("{"):
                yield from leaves_of(node.items, steps)
                break
            if node == "as":
                yield steps, part[at + 1].text
                break
            if node.kind == "word" and node != "self" or node == "*":
                steps.append(node.text)
        else:
            if steps:
                yield steps, steps[-1]


def parted_by_commas(nodes):
    start = 0
    for at in range(len(nodes) + 1):
        if at == len(nodes) or nodes[at] == ",":
            if at > start:
                yield nodes[start:at]
            start = at + 1
