#!/bin/sh
# Makes the folder bin beside this script: for each command a copy of the launcher, by whose name it knows the command.
# (The kit refuses links in a repository.)
cd "$(dirname "$0")" && mkdir -p bin || exit 1
for module in parv_commands/*/command.py; do
    name=${module%/command.py}
    file=bin/parv-${name#parv_commands/}
    # Others may run it meanwhile, so it is replaced as a whole.
    cmp -s parv_commands/launcher "$file" || { cp parv_commands/launcher "$file.$$" && mv "$file.$$" "$file"; } || exit 1
done
