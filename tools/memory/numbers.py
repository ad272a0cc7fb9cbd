"""Follows the numbers that say how much capacity is requested. A call that passes such a number on is a place too, and
so is a constant with such a number."""

from memory.frames import Place

NUMBERS = {"usize", "u64", "u32", "u16", "u8", "u128", "isize", "i64", "i32", "i16", "i8", "i128"}


def is_number(kind):
    """Returns whether a type, as nodes, is a type of numbers."""
    return len(kind) == 1 and kind[0].text in NUMBERS


class Function:
    """A function: the names and types of its parameters, its bindings, and the names in each request for capacity."""

    def __init__(self, parameters):
        self.parameters, self.bindings, self.rooms = parameters, [], []

    def names_to(self, rooms):
        """Returns the names that say how much capacity is requested."""
        wanted = set().union(*rooms)
        grown = True
        while grown:
            grown = False
            for names, words in self.bindings:
                if wanted & names and not words <= wanted:
                    wanted |= words
                    grown = True
        return wanted

    def numbers_to(self, rooms):
        """Returns those of them that are parameters and numbers, by their positions."""
        wanted = self.names_to(rooms)
        return {at for at, (names, kind) in enumerate(self.parameters)
                if wanted.intersection(names) and is_number(kind)}


class Call:
    """A call of a function of the sources, with the names in each argument."""

    def __init__(self, function, owner, frame, name, kind, is_method, arguments):
        self.function, self.owner, self.frame, self.name = function, owner, frame.copy(), name
        self.kind, self.is_method, self.arguments = kind, is_method, arguments

    def may_be(self, kind, function):
        """Returns whether the call may be of this function, which belongs to the type of this name, or to none."""
        if self.is_method:
            return bool(function.parameters) and "self" in function.parameters[0][0]
        if kind == "":
            return self.kind is None or self.kind.islower()
        return self.kind == kind or self.kind == "Self" and self.owner.split("::")[0] == kind

    def words_for(self, methods, wanted):
        """Returns the names in the arguments that it passes on to a request for capacity, or None if it passes on
        nothing."""
        words = None
        for kind, function in methods.get(self.name, []):
            if wanted[function] and self.may_be(kind, function):
                words = words or set()
                for at in wanted[function]:
                    at -= self.is_method
                    if at < len(self.arguments):
                        words |= self.arguments[at]
        return words


def handed_on(readings):
    """Yields, for each source, the calls that pass a number on to a request for capacity, as places."""
    methods, rooms, wanted = {}, {}, {}
    for reading in readings:
        for kind, name, function in reading.functions:
            methods.setdefault(name, []).append((kind, function))
            rooms[function] = list(function.rooms)
            wanted[function] = function.numbers_to(rooms[function])
    handed = [{} for _ in readings]
    grown = True
    while grown:
        grown = False
        for reading, found in zip(readings, handed):
            for call in reading.calls:
                words = call.words_for(methods, wanted)
                if words is not None and found.get(call) != words:
                    found[call] = words
                    grown = True
                    if call.function in rooms:
                        rooms[call.function].append(words)
                        wanted[call.function] = call.function.numbers_to(rooms[call.function])
    constants = constants_of(readings, {function: function.names_to(rooms[function]) for function in rooms})
    for reading, found in zip(readings, handed):
        seen = {id(nodes) for part, nodes in reading.seen if part == "rooms"}
        places = [Place("rooms", reading.file, f"const {name}", code) for file, name, code, _ in constants
                  if file == reading.file]
        for call in reading.calls:
            nodes = call.frame.statement().nodes
            if call in found and id(nodes) not in seen:
                seen.add(id(nodes))
                places.append(Place("rooms", reading.file, call.owner, call.frame.code()))
        yield places


def constants_of(readings, names):
    """Returns the constants that say how much capacity is requested: the file, the name, the code, and the names in
    their values."""
    known, found = {}, []
    for reading in readings:
        for constant in reading.constants:
            known.setdefault(constant[1], []).append(constant)
    todo = [(reading.file, name) for reading in readings for _, _, function in reading.functions
            for name in names[function]]
    while todo:
        file, name = todo.pop()
        near = [constant for constant in known.get(name, []) if constant[0] == file] or known.get(name, [])
        for constant in near:
            if constant not in found:
                found.append(constant)
                todo += [(constant[0], word) for word in constant[3]]
    return sorted(found, key=lambda constant: constant[:2])
