"""Finds the places of sources where out of memory is returned by hand, and where capacity is requested.

Code returns out of memory by hand if it contains a name of that error: an error of the allocator, an error variant that
means it, the name that the system has for it, or its message. Patterns, types and uses don't count. In an impl of From,
an expression that turns one such error into another doesn't count either. Code that could return such an error without
its name does count: a default, unsafe code, another allocator, or another name for any of these.
"""

import re

from memory.frames import (
    BEFORE_OPERANDS, Frame, Place, begins_operand, behind_result, behind_types, end_of_arm, end_of_statement,
    ends_with, first_group, has_arrow, is_literal, is_pattern, is_unused, strings_of, words_of,
)
from memory.items import impl_of, item_at, items_of, leaves_of, parameters_of, type_name, variants_of
from memory.numbers import Call, Function, handed_on, is_number
from memory.tokens import first_at, line_of, parted, trees

ERRORS = {"AllocError", "AllocFailed"}   # the errors of the allocator
SIGNS = ERRORS | {
    "OutOfMemory", "ENOMEM", "raw_os_error", "from_raw_os_error", "SpawnError", "RefCell", "Allocator", "Bump",
    "LocalHeap", "unsafe", "transmute", "path_from_str", "Default", "default", "unwrap_or_default", "or_default",
}
MEANING = re.compile("memory (was|is) refused|memory (ran|runs) out|(no|out of|want of) memory", re.IGNORECASE)
MESSAGE = re.compile("memory|alloc", re.IGNORECASE)
PROGRAM = "crates/parv/"                 # its functions have no contract, so an exit status counts too
STATUSES = {"ExitCode", "exit", "abort"}

ROOMS = {
    "with_capacity", "reserve", "reserve_exact", "try_reserve", "try_reserve_exact", "resize", "resize_with",
    "try_resize_with", "from_elem", "from_slice", "from_clones", "from_str", "from_vec", "from_string", "from_iter",
    "to_vec", "to_owned", "to_string", "into_owned", "repeat", "repeat_n", "concat", "join", "collect",
    "try_collect", "extend", "try_extend", "extend_from_slice", "extend_from_within", "extend_with_clones", "append",
    "split_off", "insert_str", "replace_range", "sort", "sort_by", "sort_by_key", "sort_by_cached_key", "clone",
    "try_clone", "read_to_end", "read_to_string", "shrink_to", "shrink_to_fit", "allocate", "allocate_zeroed",
}
BOXES = ("Box", "Rc", "Arc")             # their `new` takes memory for a value
FREE = {("Sequence", "from_vec"), ("Text", "from_string")}   # these take over memory that was taken before
MACROS = ("matches", "vec", "format", "write", "writeln", "prove", "unreachable")
TEXTS = ("format", "write", "writeln")   # as long as the values that they show, unless they have a width or a precision
WIDE = re.compile(r"\{[^{}]*:[^{}]*[0-9$*][^{}]*\}")


class Source:
    """A source: its items, and what these declare for all sources."""

    def __init__(self, file, text):
        self.file, self.nodes = file, trees(text)
        self.functions, self.faults, self.becomes = set(), [], []
        self.declare(self.nodes)
        self.readings = {}

    def declare(self, nodes):
        for item in items_of(nodes):
            if item.kind == "fn":
                self.functions.add(item.name)
            elif item.kind == "enum":
                self.faults.append((item.name, {
                    name for name, docs, attributes, payload in variants_of(item)
                    if MESSAGE.search(name) or MEANING.search(docs) or ERRORS & words_of(payload)
                    or any(MESSAGE.search(text) for text in strings_of(attributes))}))
            elif item.body is not None and item.kind in ("mod", "impl", "trait"):
                if item.kind == "impl":
                    trait, source, name = impl_of(item)
                    if trait == "From" and type_name(source) in ERRORS:
                        self.becomes.append((name, set(re.findall(
                            rf"\b(?:{name}|Self)::([A-Z]\w*)", line_of(item.body.items)))))
                self.declare(item.body.items)

    def read(self, names):
        if names.key not in self.readings:
            self.readings[names.key] = Reading(self.file, self.nodes, names)
        return self.readings[names.key]


class Names:
    """The declarations of all sources together: their functions, and the variants of each enum that mean out of
    memory."""

    def __init__(self, sources):
        self.functions, self.faults = set(), {}
        for source in sources:
            self.functions |= source.functions
            for name, variants in source.faults:
                self.faults[name] = self.faults.get(name, set()) | variants
        for source in sources:
            for name, variants in source.becomes:
                if name in self.faults:
                    self.faults[name] |= variants
        self.variants = set().union(*self.faults.values())
        self.key = frozenset(self.functions), frozenset((name, frozenset(self.faults[name])) for name in self.faults)


class Reading:
    """Reads one source."""

    def __init__(self, file, nodes, names):
        self.file, self.names = file, names
        self.places, self.seen, self.calls, self.functions, self.constants = [], [], [], [], []
        self.owner, self.function = "", None
        self.fmt_errors, self.source, self.exempt, self.plain = set(), None, False, False
        self.items(nodes, "")

    # Items.

    def items(self, nodes, kind):
        for item in items_of(nodes):
            self.item(item, kind)

    def item(self, item, kind):
        outer = self.owner, self.function, self.source, self.exempt, self.plain
        self.owner = f"{item.kind} {item.name}".strip()
        frame = Frame(item.head)
        for group in item.attributes:
            if item.kind == "mod" and words_of([group]) & {"path"} or any(
                    MESSAGE.search(text) for text in strings_of([group])):
                self.place("answers", Frame([group]))
        if item.name in SIGNS - {"default", "Default"} or item.kind == "macro_rules" and item.name in MACROS or any(
                node.kind == "word" and node.text in ("unsafe", "extern") for node in item.head):
            self.place("answers", frame)
        if item.kind == "use":
            self.uses(item)
        elif item.kind == "fn":
            self.owner = f"{kind}::{item.name}" if kind else item.name
            if item.name != "from":
                self.exempt, self.source = False, None
            if item.body is not None:
                self.function = Function(parameters_of(item))
                self.functions.append((kind, item.name, self.function))
                self.block(item.body.items, None)
        elif item.kind in ("impl", "trait", "mod"):
            if item.body is not None:
                name = item.name
                if item.kind == "impl":
                    trait, source, name = impl_of(item)
                    self.exempt = trait == "From" and type_name(source) in ERRORS
                    self.source = self.names.faults.get(type_name(source)) if trait == "From" else None
                    if trait == "Allocator":
                        self.place("answers", frame)
                self.items(item.body.items, "" if item.kind == "mod" else name)
        elif item.kind == "enum":
            self.enum(item)
        elif item.kind in ("const", "static"):
            start = first_at(item.head, 0, len(item.head), "=")
            if is_number(item.head[first_at(item.head, 0, start, ":") + 1:start]):
                self.constants.append((self.file, item.name, line_of(item.head), words_of(item.head[start:])))
            self.function = Function([])
            self.expression(frame, start + 1, len(item.head))
        elif item.kind == "type":
            if item.head[-1].text in ERRORS or type_name(item.head) in ERRORS:
                self.place("answers", frame)
        elif item.kind in ("macro_rules", "call"):
            self.plain = True
            self.function = Function([])
            self.block(item.body.items, None)
        self.owner, self.function, self.source, self.exempt, self.plain = outer

    def uses(self, item):
        start = first_at(item.head, 0, len(item.head), "use") + 1
        for path, name in leaves_of(item.head[start:]):
            wanted = SIGNS | self.names.variants
            is_error = path[-1] in ERRORS and path[:-1] not in (["std", "alloc"], ["core", "alloc"])
            is_renamed = name != path[-1] and (name in wanted or path[-1] in wanted | {"fmt", "alloc"})
            if path[-2:] == ["fmt", "Error"]:
                self.fmt_errors.add(name)
            if is_error or is_renamed:
                self.places.append(Place("answers", self.file, "use", line_of(item.head)))

    def enum(self, item):
        for name, _, attributes, payload in variants_of(item):
            for group in [*attributes, *payload]:
                said = words_of([group]) & {"default", "from"} and name in self.names.variants
                if said or any(MESSAGE.search(text) for text in strings_of([group])):
                    self.places.append(Place("answers", self.file, self.owner, f"#{line_of([group])} {name}"))

    # Code.

    def block(self, nodes, up):
        at = 0
        while at < len(nodes):
            item = item_at(nodes, at)
            if item is not None:
                self.item(item, "")
                at = item.end
                continue
            end = end_of_statement(nodes, at)
            self.expression(Frame(nodes[at:end], up), 0, end - at)
            at = end

    def expression(self, frame, at, end):
        nodes, waiting = frame.nodes, 0
        while at < end:
            node = nodes[at]
            frame.at = at
            at += 1
            if node.opens("{"):
                if waiting and (has_arrow(node.items) or not node.items):
                    self.arms(node.items, frame)
                    waiting -= 1
                elif is_literal(node.items):
                    for part in parted(node.items, ","):
                        self.expression(Frame(part, frame), 0, len(part))
                else:
                    self.block(node.items, frame)
            elif node.kind == "group":
                inner = Frame(node.items, frame, False)
                self.expression(inner, 0, len(node.items))
            elif node.kind == "string":
                if MESSAGE.search(node.text):
                    self.place("answers", frame)
            elif node.kind in ("number", "char"):
                if self.file.startswith(PROGRAM):
                    self.place("answers", frame)
            elif node == "|" and begins_operand(nodes, at - 1):
                close = first_at(nodes, at, end, "|")
                for part in parted(nodes[at:close], ","):
                    self.pattern(Frame(part, frame, False), 0, len(part))
                at = behind_result(nodes, close + 1, end)
            elif node == "||" and begins_operand(nodes, at - 1):
                at = behind_result(nodes, at, end)
            elif node == "::" and at < end and nodes[at] == "<":
                at = behind_types(nodes, at, end)
            elif node == "let":
                at = self.let(frame, at, end)
            elif node == "for" and at < end and not nodes[at] == "<":
                split = first_at(nodes, at, end, "in")
                self.bind(nodes[at:split], nodes[split + 1:first_group(nodes, split, end)])
                self.pattern(frame, at, split)
                at = split + 1
            elif (node.kind == "word" and node.text not in BEFORE_OPERANDS and at + 1 < end and nodes[at] == "!"
                  and nodes[at + 1].kind == "group"):
                self.word(frame, at - 1)
                self.macro(frame, at + 1)
                at += 2
            elif node.kind == "word":
                waiting += node.text == "match"
                self.word(frame, at - 1)

    def pattern(self, frame, start, end):
        """Reads a pattern. A pattern makes no error, but a test for the system's name of out of memory counts too."""
        if self.plain or not is_pattern(frame.nodes[start:end]):
            self.expression(frame, start, end)
        elif words_of(frame.nodes[start:end]) & (SIGNS - ERRORS):
            frame.at = start
            self.place("answers", frame)

    def let(self, frame, at, end):
        nodes = frame.nodes
        equals = first_at(nodes, at, end, "=")
        colon = first_at(nodes, at, equals, ":")
        self.bind(nodes[at:colon], nodes[equals + 1:end if at == 1 else first_group(nodes, equals, end)])
        self.pattern(frame, at, colon)
        return equals + 1

    def bind(self, pattern, value):
        if self.function is not None:
            self.function.bindings.append((words_of(pattern), words_of(value)))

    def macro(self, frame, at):
        """Reads the arguments of a macro as code, since nobody knows what it makes of them. Those of `matches!` are
        read as they are."""
        name, group = frame.nodes[at - 2].text, frame.nodes[at]
        frame.at, outer = at, self.plain
        inner = Frame(group.items, frame, False)
        if name != "matches":
            self.plain = self.plain or name not in MACROS
            self.expression(inner, 0, len(group.items))
            self.plain = outer
            return
        end = len(group.items)
        comma = first_at(group.items, 0, end, ",")
        guard = first_at(group.items, comma, end, "if")
        self.expression(inner, 0, comma)
        self.pattern(inner, comma + 1, guard if guard < end else end - (group.items[-1] == ","))
        self.expression(inner, guard + 1, end)

    def arms(self, nodes, up):
        start = 0
        while start < len(nodes):
            arrow = first_at(nodes, start, len(nodes), "=>")
            if arrow == len(nodes):
                self.expression(Frame(nodes[start:], up), 0, arrow - start)
                break
            end = end_of_arm(nodes, arrow)
            arm = Frame(nodes[start:end], up)
            arrow -= start
            guard = first_at(arm.nodes, 0, arrow, "if")
            outer = self.exempt
            if self.source:
                self.exempt = all(ends_with(part, self.source) for part in parted(arm.nodes[:guard], "|"))
            self.pattern(arm, 0, guard)
            self.expression(arm, guard + 1, arrow)
            self.expression(arm, arrow + 1, len(arm.nodes))
            self.exempt = outer
            start = end + 1 if end < len(nodes) and nodes[end] == "," else end

    def word(self, frame, at):
        nodes, text = frame.nodes, frame.nodes[at].text
        before = [node.text if node.kind != "group" else "" for node in nodes[max(0, at - 2):at]]
        is_fmt = text == "Error" and before == ["fmt", "::"] or text in self.fmt_errors and before[-1:] != ["::"]
        if text in ERRORS or text in self.names.variants or is_fmt:
            if not self.exempt or text == "OutOfMemory":
                self.place("answers", frame)
            return
        if text in SIGNS or text in STATUSES and self.file.startswith(PROGRAM):
            self.place("answers", frame)
            return
        self.call(frame, at, before)

    def call(self, frame, at, before):
        """Records a name that requests capacity, and a call of a function of the sources."""
        nodes, text, behind = frame.nodes, frame.nodes[at].text, frame.nodes[at + 1:]
        if text in ("vec", *TEXTS) and len(behind) > 1 and behind[0] == "!":
            inside = behind[1].items
            if text == "vec" or any(WIDE.search(re.sub(r"\{\{|\}\}", "", said)) for said in strings_of(inside)):
                self.room(frame, words_of(inside))
            return
        open_at = at + 1
        if len(behind) > 1 and behind[0] == "::" and behind[1] == "<":
            open_at = behind_types(nodes, at + 2, len(nodes))
        inside = nodes[open_at].items if open_at < len(nodes) and nodes[open_at].opens("(") else None
        is_own = text in self.names.functions
        is_room = text in ROOMS and (before[-1:] in (["::"], ["."]) or inside is not None and not is_own)
        if inside is not None:
            is_room = is_room or before[:1] in ([box] for box in BOXES) and text == "new"
            is_room = is_room or not is_own and text != "new" and any(node == "alloc" for node in inside)
        if is_room and tuple(before[:1] + [text]) not in FREE and not is_unused(frame, at):
            self.room(frame, words_of(inside if inside and inside[1:] else nodes))
        if inside is not None and is_own:
            arguments = [words_of(part) for part in parted(inside, ",")]
            kind = before[0] if before[1:] == ["::"] else None
            self.calls.append(Call(self.function, self.owner, frame, text, kind, before[-1:] == ["."], arguments))

    def room(self, frame, words):
        if self.function is not None:
            self.function.rooms.append(words)
        self.place("rooms", frame)

    def place(self, part, frame):
        """Records the statement, once."""
        nodes = frame.statement().nodes
        if not any(seen is nodes and part == kind for kind, seen in self.seen):
            self.seen.append((part, nodes))
            self.places.append(Place(part, self.file, self.owner, frame.code()))


def places_of(sources):
    """Returns all places of the sources, in order."""
    names = Names(sources)
    readings = [source.read(names) for source in sources]
    found = []
    for reading, handed in zip(readings, handed_on(readings)):
        found += without_fronts(reading.places + handed)
    return found


def without_fronts(places):
    """Yields the places, except those that are the head of another one."""
    for place in places:
        head = place.key[:3], place.key[3].removesuffix("{..}") + "{"
        if not any(other.key[:3] == head[0] and other.key[3].startswith(head[1]) for other in places
                   if other is not place):
            yield place
