"""An injected bug, as its file describes it. The head of run.py describes these files."""

import glob
import os
import re

HERE = os.path.dirname(os.path.realpath(__file__))
TOP = os.path.dirname(os.path.dirname(HERE))
INDENT = "    "


class Misfit(Exception):
    """The reason why a bug can't be injected, or why its file is wrong."""


class Edits(list):
    """Replacements in the files of a crate, in order: for each the file, the text that occurs there once, and the one
    that takes its place."""

    def __init__(self):
        super().__init__()
        self.at = ""

    def take(self, key, value):
        """Takes a field `file`, `old` or `new`. Returns whether it is one and can follow those that were taken."""
        if key == "file":
            self.at = value
        elif key == "old" and self.at:
            self.append([self.at, value, None])
        elif key == "new" and self and self[-1][2] is None:
            self[-1][2] = value
        else:
            return False
        return True

    def are_whole(self):
        return bool(self) and all(new is not None for _, _, new in self)

    def made(self, folder):
        """Returns the texts of the files below this folder, by path, with everything replaced."""
        texts = {}
        for at, old, new in self:
            path = os.path.join(folder, at)
            if path not in texts:
                if not os.path.isfile(path):
                    raise Misfit(f"doesn't apply: there is no {at} in {os.path.basename(folder)}")
                with open(path, encoding="utf-8") as file:
                    texts[path] = file.read()
            if old == new or texts[path].count(old) != 1:
                raise Misfit(f"doesn't apply: {at} has {texts[path].count(old)} times: {old}")
            texts[path] = texts[path].replace(old, new)
        return texts


class Fault:
    def __init__(self, path):
        self.name = os.path.basename(path).removesuffix(".fault")
        self.crate, self.edits, self.beside, self.seen, self.passes = "", Edits(), [], [], []
        with open(path, encoding="utf-8") as file:
            fields = list(fields_of(file.read()))
        for key, value in fields:
            if key == "crate":
                self.crate = value
            elif key in ("beside", "seen", "passes"):
                getattr(self, key).append(value)
            elif not self.edits.take(key, value):
                raise Misfit(f"has a line that isn't understood: {key}: {value}")
        if not self.crate or not self.edits.are_whole() or not self.seen + self.passes:
            raise Misfit("plants nothing, or nothing says of it")

    def paths(self):
        return {os.path.join("crates", self.crate, at) for at, _, _ in self.edits}

    def planted(self, top):
        """Returns the texts of its files below this folder, by path, with the bug in them."""
        return self.edits.made(os.path.join(top, "crates", self.crate))

    def plant(self, top):
        for path, text in self.planted(top).items():
            with open(path, "w", encoding="utf-8") as file:
                file.write(text)


def fields_of(text):
    """Returns the keys of a file with their values. A line that begins with blanks continues the value above it."""
    found = []
    for line in text.splitlines():
        if line.startswith(INDENT) and found:
            found[-1][1] += "\n" + line.removeprefix(INDENT)
        elif line and not line.startswith("#"):
            key, _, value = line.partition(": ")
            found.append([key.removesuffix(":"), value])
    return found


def parts_of(said):
    """Splits the name of what notices a bug: a check with a text, or a crate and its test. The text may be empty."""
    what, name, *text = said.split(" ", 2)
    return what, name, text[0] if text else ""


def paths_of(folder=HERE):
    return sorted(glob.glob(os.path.join(folder, "*.fault")))


def misfits(folder):
    """Returns what is wrong with the files of a folder: a line for each that doesn't apply, or that names something
    that doesn't exist."""
    with open(os.path.join(TOP, "crates.txt"), encoding="utf-8") as file:
        crates = {line.split(":")[0].split()[0] for line in file if ":" in line}
    lines, known = [], {}
    for path in paths_of(folder):
        name = os.path.basename(path)
        try:
            fault = Fault(path)
            fault.planted(TOP)
            for crate in {fault.crate, *fault.beside} - crates:
                raise Misfit(f"names a crate that isn't there: {crate}")
            for said in fault.seen + fault.passes:
                must_be_there(said)
            same = known.setdefault((fault.crate, str(fault.edits)), name)
            if same != name:
                raise Misfit(f"plants what {same} plants")
        except Misfit as why:
            lines.append(f"{name} {why}")
    return lines


def must_be_there(said):
    what, name, text = parts_of(said)
    if what == "check":
        if not os.path.isfile(os.path.join(TOP, "tools/checks", f"{name}.sh")):
            raise Misfit(f"names a check that isn't there: {name}")
    elif what == "test" and text:
        found = 0
        for path in glob.glob(os.path.join(TOP, "crates", name, "src/**/*.rt"), recursive=True):
            with open(path, encoding="utf-8") as file:
                found += len(re.findall(rf"\bfn {re.escape(text)}\b", file.read()))
        if found != 1:
            raise Misfit(f"names a test that stands {found} times in {name}: {text}")
    else:
        raise Misfit(f"isn't understood: {said}")
