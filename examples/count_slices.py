#!/usr/bin/env python3
"""Counts for each searched file how many slices of a PAR2 set it contains, from the lines of `parv find`.

usage: count_slices.py FILES        packet files of the set, and files to be searched
"""
import collections
import os
import subprocess
import sys

parv = os.environ.get("PARV", "parv")
files = [name for name in sys.argv[1:] if not os.path.isdir(name)]      # parv accepts no folder
packet_files = [name for name in files if name.lower().endswith(".par2")]
first = subprocess.run([parv, "set", "--", *packet_files], stdout=subprocess.PIPE, text=True)
found = subprocess.run([parv, "find", "--", *files], stdout=subprocess.PIPE, text=True)
if first.returncode or found.returncode:    # a line on standard error says why
    sys.exit(found.returncode or first.returncode)
slices = first.stdout.split("\n")[0].split(" ")[-1]     # set ID size N slices N

seen = collections.defaultdict(set)
for line in found.stdout.splitlines()[:-1]:     # the last line is `end`
    name, offset, file_id, number = line.rsplit(" ", 3)     # only the name may have spaces
    seen[name].add((file_id, number))
for name, numbers in seen.items():
    print(f"{name}: {len(numbers)} of {slices} slices")
