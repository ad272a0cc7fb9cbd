#!/usr/bin/env python3
"""Counts phrases that make a reader read twice, in the pages and in the usage texts of the commands.

usage: hard_phrases.py [NAME...]            lists them, in all pages and usage texts or in these
       hard_phrases.py --check CEILINGS     compares their numbers with a file of ceilings
       hard_phrases.py --lower CEILINGS     lowers the ceilings that are too high
       hard_phrases.py --try                tries the patterns on sentences that have them, and on some that don't

A hit is a place to look at, and may be right: `where` is a good word for a place. So each page has a ceiling, a line
`NUMBER NAME` of the file. It may fall and not rise; a page without a line may have none. Code isn't looked at: what
is in backticks, in literal lines and blocks, and in the macros of manual pages.
"""

import glob
import os
import re
import subprocess
import sys

# For each pattern: what to write instead, and a sentence that contains it.
PATTERNS = [
    (r"(?<!place )(?<!places )(?<!offset )(?<!from )\bwhere\b(?! to\b)(?! (?:it|they|you) (?:is|are|was|were|came) (?:from|to)\b)",
     "`if` or `when` for a condition", "It ends with 6 where a file can't be read."),
    (r"\b(?:stands?|stood|standing)\b(?! for\b)", "is, appears, is written", "A line stands there."),
    (r"\b(?:tells?|told)\b", "reports, says, prints", "The fault is told."),
    (r"\balone\b", "only", "It reads packet files alone."),
    (r"\bbehind\b", "after", "Zeros stand behind it."),
    (r"\b(?:so|as) many\b(?! (?:\w+ ){0,3}as\b)", "the number of what", "It ends after so many."),
    (r"\bwants? of memory\b|\bmemory (?:is|was) wanted\b", "out of memory", "Want of memory ends it."),
    (r"\bof which (?:that )?was read\b|\bof which (?:this|it) (?:is|was) read\b", "consistent with the reads",
     "It holds for files of which that was read."),
    (r"\bbut for\b", "except", "All are removed but for one."),
    (r"\bis another\b|\bare others?\b", "differs, changes", "The order is another."),
    (r"^(?:What|Who|Whoever|That of|Of (?:these|this|that|it))\b(?!.*\?)", "begin with a noun",
     "What was damaged stays."),
    (r"(?<=[.:] )(?:What|Who|Whoever|That of|Of (?:these|this|that|it))\b(?![^.]*\?)", "begin with a noun",
     "It ends. Who changes it reads it again."),
    (r"\bput aside\b", "rejected", "Packets are put aside."),
    (r"\banew\b", "again", "It is made anew."),
    (r"\bby (?:it|this|which) (?:is|are)\b", "put the subject first", "The file, by which is told that it ended."),
    (r"\bhanded (?:over|out|in)\b", "read, returned, passed", "Bytes are handed over."),
    (r"\bsightings?\b", "match", "Each sighting has a line."),
    (r"\bwrong bod(?:y|ies)\b", "mutant", "A wrong body is refused."),
    (r"\bheadline\b", "main theorem", "The headline says it."),
]
GOOD = [
    "If a file can't be read, it ends with 6.", "The number of bytes is printed.", "What is a slice?",
    "Look where it came from.", "It is `where` the time goes.", "The place where it begins is printed.",
    "A slice is found anywhere, everywhere or elsewhere.", "There are as many as before, and as many files as packets.",
    "The letters stand for a name.", "A table says what each letter stands\nfor.",
]


def is_heading_or_code(line):
    return line.startswith(("#", "    ", "\t"))


def markdown(text):
    """Yields the lines of a page that are prose, without the text in backticks."""
    fenced = False
    for number, line in enumerate(text.splitlines(), 1):
        if line.startswith("```"):
            fenced = not fenced
        elif not fenced and not is_heading_or_code(line):
            # Bold text at the beginning of a paragraph is a heading too.
            yield number, re.sub(r"^[-> ]*(?:\*\*.*?\*\*)?[-* ]*", "", re.sub(r"`[^`]*`", "`", line))


def manual(text):
    """Yields the lines of a manual page that are prose."""
    literal = False
    for number, line in enumerate(text.splitlines(), 1):
        if line.startswith((".Bd", ".Ed")):
            literal = line.startswith(".Bd")
        elif not literal and not line.startswith((".", "'")):
            yield number, line


def usage(text):
    """Yields the lines of a usage text, without the arguments, options and exit statuses before
    their meanings."""
    for number, line in enumerate(text.splitlines(), 1):
        yield number, re.sub(r"^  (?:[A-Z]+|-\S.*?|\d+)(?:  +|$)", "", line).strip()


def pages():
    """Returns the names of pages, and of programs that have a usage text."""
    forms = ("*.md", "docs/*.md", "docs/*.[1-9]", "demo/*.md", "crates/*/README.md", "commands/bin/*")
    return sorted(name for form in forms for name in glob.glob(form) if os.path.isfile(name))


def prose(name):
    """Returns the lines of a page or usage text that are prose."""
    if name.startswith("commands/bin/"):
        run = subprocess.run([name, "-h"], stdin=subprocess.DEVNULL, capture_output=True, text=True, timeout=60)
        if run.returncode != 0 or not run.stdout:
            sys.exit(f"{name} -h ends with {run.returncode}: {run.stderr.strip()}")
        return usage(run.stdout)
    with open(name, encoding="utf-8") as page:
        text = page.read()
    return markdown(text) if name.endswith(".md") else manual(text)


def hits(lines):
    """Yields each hit: the number of its line, what to write instead, and the line."""
    lines = list(lines)
    for at, (number, line) in enumerate(lines):
        # A phrase may continue on the next line.
        after = lines[at + 1][1] if at + 1 < len(lines) and lines[at + 1][0] == number + 1 else ""
        text = " ".join([line, *after.split()[:3]])
        for form, instead, _ in PATTERNS:
            for hit in re.finditer(form, text, 0 if form.startswith(("^", "(?<=")) else re.IGNORECASE):
                if hit.start() < len(line):
                    yield number, instead, line.strip()


def read_ceilings(path):
    with open(path, encoding="utf-8") as lines:
        return {name: int(number) for number, name in (line.split(None, 1) for line in lines.read().splitlines())}


def check(path):
    """Prints each page that has more hits than its ceiling, and returns whether there is none."""
    ceilings = read_ceilings(path)
    counts = {name: list(hits(prose(name))) for name in pages()}
    too_many = {name: found for name, found in counts.items() if len(found) > ceilings.get(name, 0)}
    for name, found in too_many.items():
        print(f"FAILED: {name} has {len(found)} hard phrases, and may have {ceilings.get(name, 0)}")
        for number, instead, line in found:
            print(f"    {name}:{number}: {instead}: {line[:100]}")
    low = [name for name in ceilings if len(counts.get(name, ())) < ceilings[name]]
    if not too_many:
        print(f"ok: {len(counts)} pages and usage texts have {sum(map(len, counts.values()))} hard phrases, and may have"
              f" {sum(ceilings.values())}" + (f"; these ceilings are too high: {' '.join(low)}" if low else ""))
    return not too_many


def lower(path):
    """Lowers each ceiling to the number of hits, and raises none."""
    ceilings = read_ceilings(path)
    there = set(pages())
    counts = {name: len(list(hits(prose(name)))) for name in ceilings if name in there}
    with open(path, "w", encoding="utf-8") as out:
        for name in sorted(counts):
            if counts[name]:
                out.write(f"{min(ceilings[name], counts[name])} {name}\n")
    return True


def try_patterns():
    """Prints each pattern that misses its sentence or hits a good one, and returns whether there is
    none."""
    missed = [sentence for form, instead, sentence in PATTERNS
              if instead not in {hit[1] for hit in hits(markdown("- " + sentence))}]
    wrong = [sentence for sentence in GOOD if list(hits(markdown(sentence)))]
    code = list(hits(markdown("    where it stands\n## Where it stands\n```\nalone\n```\n")))
    pages_text = list(hits(manual(".Bd -literal\nwhere it stands\n.Ed\n.Dl told\nIt is told.\n")))
    help_text = list(hits(usage("usage: X FILES\n  FILES  What is read\n  6      where parv can't be run\n")))
    for sentence in missed + wrong:
        print(f"FAILED: the patterns say something else of: {sentence}")
    fine = not (missed or wrong or code) and len(pages_text) == 1 and len(help_text) == 2
    print("ok: each pattern of hard phrases was tried" if fine else "FAILED: the patterns of hard phrases")
    return fine


def main(words):
    os.chdir(os.path.join(os.path.dirname(os.path.realpath(__file__)), ".."))
    if len(words) == 2 and words[0] == "--check":
        return check(words[1])
    if len(words) == 2 and words[0] == "--lower":
        return lower(words[1])
    if words == ["--try"]:
        return try_patterns()
    if words and words[0].startswith("-"):
        print(__doc__)
        return words[0] in ("-h", "--help")
    for name in words or pages():
        for number, instead, line in hits(prose(name)):
            print(f"{name}:{number}: {instead}\n    {line[:160]}")
    return True


if __name__ == "__main__":
    sys.exit(0 if main(sys.argv[1:]) else 1)
