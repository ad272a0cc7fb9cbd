"""Compares the code in the READMEs of the crates with what the gate runs of it.

Fenced code is in the one file src/tests/readme/of_NAME.rt of a crate of tests, whose test calls its functions.
Indented code is the call of a program, with the arguments in its file args. The gate runs that with the files of
data/ in the current folder.
"""
import glob
import os
import re
import sys

os.chdir(sys.argv[1])
failed = examples = 0


def fails(text):
    global failed
    failed = 1
    print("FAILED: " + text)


def stripped(lines):
    return [line.strip() for line in lines]


def split_imports(lines):
    """The imports that code begins with, and the lines after them."""
    count = 0
    while count < len(lines) and re.match(r"(use .*;)?$", lines[count]):
        count += 1
    return [line for line in lines[:count] if line], lines[count:]


def without(lines, part):
    """The lines without this part of them, or None if they don't contain it."""
    for start in range(len(lines) - len(part) + 1):
        if lines[start:start + len(part)] == part:
            return lines[:start] + lines[start + len(part):]
    return None


def compare(readme, blocks, path):
    """Wants each block in the file of the test, and a test there that calls each function of the blocks."""
    rest = stripped(open(path).read().splitlines())
    for block in blocks:
        imports, code = split_imports(block)
        for part in [[line] for line in imports] + [code]:
            left = without(rest, part)
            if left is None:
                missing = next((line for line in part if line not in rest), part[0] if part else "")
                return fails("%s differs from the code in %s, at: %s" % (path, readme, missing))
            rest = left
    for name in re.findall(r"^(?:pub )?fn (\w+)", "\n".join(sum(blocks, [])), re.M):
        if not re.search(r"\b%s\(" % name, "\n".join(rest)):
            return fails("%s doesn't call %s of %s" % (path, name, readme))
    if rest.count("#[test]") != 1:
        return fails("%s has %d tests" % (path, rest.count("#[test]")))


tests = {}
for path in sorted(glob.glob("crates/*/src/tests/readme/of_*.rt")):
    tests.setdefault(os.path.basename(path)[3:-3], []).append(path)
for readme in sorted(glob.glob("crates/*/README.md")):
    crate = readme.split("/")[1]
    text = open(readme).read()
    # The end is there too, so a block that isn't closed is compared.
    blocks = [stripped(block.splitlines())
              for block in re.findall(r"^ *(?:```|~~~).*\n((?:.*\n)*?)(?: *(?:```|~~~) *$|\Z)", text, re.M)]
    calls = re.findall(r"(?:^|\n\n)((?: {4}.*\n)+)", text)
    paths = tests.pop(crate, [])
    examples += len(blocks) + len(calls)
    if blocks and len(paths) != 1:
        fails("the code in %s has %d files crates/*/src/tests/readme/of_%s.rt" % (readme, len(paths), crate))
    elif blocks:
        compare(readme, blocks, paths[0])
    elif paths:
        fails("%s has no code, and there is %s" % (readme, paths[0]))
    for call in calls:
        args = "crates/%s/args" % crate
        words = open(args).read().split("\n") if os.path.exists(args) else []
        if call.strip().replace(" data/", " ") != " ".join(["$ out/" + crate] + words).strip():
            fails("the gate runs another call than that in %s: %s" % (readme, call.strip()))
for crate in sorted(tests):
    fails("there is %s, and no crates/%s/README.md" % (tests[crate][0], crate))
if not failed and examples >= 10:
    print("ok: the %d examples of the crates' READMEs are what the gate runs" % examples)
elif not failed:
    fails("the crates' READMEs have %d examples" % examples)
sys.exit(failed)
