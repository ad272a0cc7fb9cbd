"""For pages.sh, which protects readers from links, paths and clauses that don't exist: looks through the pages of the
repository in the folder that is its argument."""
import glob
import os
import re
import sys

os.chdir(sys.argv[1])
PAGES = sorted(glob.glob("*.md") + glob.glob("docs/*.md") + glob.glob("crates/*/README.md")
               + glob.glob("demo/*.md"))
failed = 0


def fails(text):
    global failed
    failed = 1
    print("FAILED: " + text)


def anchors(page):
    """Returns the anchors of a page's headings."""
    heads = re.findall(r"^#+ (.*)$", open(page).read(), re.M)
    return {re.sub(r"[^\w\- ]", "", head.lower()).replace(" ", "-") for head in heads}


links = paths = 0
for page in PAGES:
    text = open(page).read()
    if page != "CHANGELOG.md":
        for path in re.findall(r"`((?:tools|crates|docs|examples|commands|demo|completions)/[\w./-]+)", text):
            paths += 1
            if not os.path.exists(path.rstrip(".")):
                fails("%s names %s, which isn't there" % (page, path))
    for target in re.findall(r"\]\(([^)\s]+)\)", text):
        links += 1
        if re.match(r"https?://", target):
            continue
        path, _, anchor = target.partition("#")
        path = os.path.normpath(os.path.join(os.path.dirname(page), path)) if path else page
        if not os.path.exists(path):
            fails("%s leads to %s, which isn't there" % (page, target))
        elif anchor and anchor not in anchors(path):
            fails("%s leads to %s, which has no such heading" % (page, target))
if not failed and links > 30 and paths > 30:
    print("ok: %d links and %d paths in %d pages lead somewhere" % (links, paths, len(PAGES)))
elif not failed:
    fails("there are %d links and %d paths" % (links, paths))

# LAYERS names each module that has code of its own in the section of its crate, and its tables name no other.
layers, modules, wrong = open("docs/LAYERS.md").read(), 0, set()
for crate in re.findall(r"^(\w+):", open("crates.txt").read(), re.M):
    section = re.search(r"^## %s\n(.*?)(?=^## |\Z)" % crate, layers, re.M | re.S)
    if crate.endswith("_tests") or crate == "parfixtures":
        continue
    rows = re.findall(r"^\| (`.*?) \|", section[1] if section else "", re.M)
    named = set(re.findall(r"`([\w/]+)`", " ".join(rows)))
    top = "crates/%s/src/" % crate
    here = {path[len(top):-3] for path in glob.glob(top + "**/*.rt", recursive=True)
            if re.search(r"^ *(pub(\(crate\))? )?(fn|struct|enum|trait|static|const) ", open(path).read(), re.M)}
    modules += len(here)
    wrong |= {(name, crate) for name in here ^ named}
for name, crate in sorted(wrong):
    fails("LAYERS names %s of %s, which isn't there, or leaves it out" % (name, crate))
if not wrong and modules > 100:
    print("ok: LAYERS names the %d modules of the libraries and the program" % modules)

# DEFINITIONS names each module of specs/.
listed = set(re.findall(r"`(\w+)`", open("docs/DEFINITIONS.md").read()))
specs = {os.path.basename(path)[:-5] for path in glob.glob("crates/*/specs/**/*.antt", recursive=True)} - {"Lib"}
for name in sorted(specs - listed):
    fails("DEFINITIONS leaves out %s" % name)
if specs <= listed and len(specs) > 100:
    print("ok: DEFINITIONS names the %d modules of specs/" % len(specs))


def clauses_by_name(paths):
    """Returns the clauses of the functions of each name. For the name of a type or a trait, it returns the clauses and
    ghost members in each file that declares it or implements something for it."""
    found = {}
    for path in paths:
        source = open(path).read()
        here = set(re.findall(r"^ *ghost (\w+) = \{", source, re.M))
        # A signature ends at the line that opens or ends the body.
        for name, signature in re.findall(r"\bfn (\w+)(.*?(?:^ *\{\}?$|;$|(?<!record) \{$))", source, re.M | re.S):
            clauses = set(re.findall(r"\bensures (\w+) \{", signature))
            found.setdefault(name, set()).update(clauses)
            here |= clauses
        for name in re.findall(r"^ *(?:pub(?:\(crate\))? )?(?:struct|enum|trait) (\w+)"
                               r"|^impl(?:<.*?>)? (?:\w+.* for )?(\w+)", source, re.M):
            found.setdefault("".join(name), set()).update(here)
    return found


# A row of three cells names functions or types, and its last cell their clauses. A row of "the same" is about those of
# the row before it.
clauses = clauses_by_name(sorted(glob.glob("crates/*/src/**/*.rt", recursive=True)))
of_any = set().union(*clauses.values())
meant, named = set(), 0
for row in re.findall(r"^\|.*\|$", open("docs/PROVED.md").read(), re.M):
    cells = [cell.strip() for cell in re.split(r"(?<!\\)\|", row)[1:-1]]
    if len(cells) != 3:
        continue
    calls = re.findall(r"`([^`]*)`", cells[0] + cells[1]) + re.findall(r"`(\w+)`:", cells[2])
    here = {name for call in calls for name in re.findall(r"\w+", call) if name in clauses}
    meant = here | meant if cells[0].startswith("the same") else here
    for name in re.findall(r"`(\w+)`(?!:)", cells[2]):
        named += name in of_any
        if name in of_any and not any(name in clauses[one] for one in meant):
            fails("PROVED names the clause %s of %s, which has none of this name" % (name, cells[0]))
        elif name not in of_any and name not in clauses:
            fails("PROVED names the clause %s, which isn't there" % name)
if not failed and named > 150:
    print("ok: PROVED names %d clauses, each at a call or a type of its row" % named)
elif not failed:
    fails("PROVED names %d clauses" % named)
sys.exit(failed)
