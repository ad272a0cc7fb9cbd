#!/usr/bin/env bash
# If this fails, a script or Python file may contain a mistake that a linter recognizes, such as an unquoted name.
#
# Both linters, shellcheck (with .shellcheckrc) and pyflakes, must find nothing, and must find something in a wrong
# file. Each line that turns one of their rules off must say why. Debian has both linters.
cd "$(dirname "$0")/../.." || exit 1
work=$(mktemp -d) || exit 1
trap 'rm -rf "$work"' EXIT
failed=0

# headed SUFFIX WORD: prints the files with this suffix, and those whose first line calls a program of this name.
headed() {
    find tools commands examples .ci \( -name __pycache__ -o -path commands/bin \) -prune -o -type f -print 2> "$work/none" | while IFS= read -r file; do
        case $file in
        *"$1") echo "$file" ;;
        */launcher) [ "$1" != .py ] || echo "$file" ;;      # (sh reads its first lines, but it is Python.)
        *.*) ;;
        *) head -n 1 "$file" | grep -aqE "^#!.*\b$2\b" && echo "$file" ;;
        esac
    done | sort
}

# lints NAME LINTER..: wants the linter to find nothing in the listed files, and something in a wrong one.
lints() {
    local name=$1
    shift
    if ! command -v "$1" > "$work/none"; then
        echo "not run: there is no $1"
    elif ! xargs -d '\n' "$@" < "$work/files" > "$work/said" 2>&1; then
        echo "FAILED: $1: $name: $(head -c 1000 "$work/said")"
        failed=1
    elif "$@" "$work/wrong" > "$work/said" 2>&1; then
        echo "FAILED: $1 sees nothing wrong in: $(cat "$work/wrong")"
        failed=1
    else
        echo "ok: $1 has nothing to say of $(wc -l < "$work/files") $name"
    fi
}

headed .sh '(ba)?sh$' > "$work/all"
grep '^tools/checks/with/\|^tools/staging.sh$' "$work/all" > "$work/read"
grep -vxFf "$work/read" "$work/all" > "$work/files"
printf '#!/bin/sh\necho $1\n' > "$work/wrong"
lints scripts shellcheck
# Scripts that others read use variables from there, or set variables for them.
mv "$work/read" "$work/files"
printf 'echo $1\n' > "$work/wrong"
lints "scripts that others read" shellcheck -s bash -e SC2034,SC2154
headed .py 'python3?' > "$work/files"
printf 'import os\n' > "$work/wrong"
lints "Python files" pyflakes3

if without=$(xargs -d '\n' grep -HnE '# *(shellcheck disable=[A-Z0-9,]+|noqa.*) *$' < "$work/all"); then
    echo "FAILED: a rule is turned off without a reason: $without"
    failed=1
else
    echo "ok: each rule that is turned off has its reason"
fi
exit $failed
