#!/usr/bin/env bash
# If this fails, a copy, a comparison, a hash or the `{:?}` text of a value in the libraries may be wrong without any
# proof noticing.
#
# The laws of these traits allow nearly any body. So none is written by hand, except the listed ones, each with a
# reason. This check reads only the sources, and runs no program.
set -uo pipefail
top=$(cd "$(dirname "$0")/../.." && pwd)
work=$(mktemp -d) || exit 1
trap 'rm -rf "$work"' EXIT
cd "$work" || exit 1
failed=0

# by_hand FOLDER: prints the impls of these traits that are written by hand in the sources below it, without the tests.
by_hand() {
    find "$1"/*/src -name '*.rt' ! -path '*_tests/*' -print0 | sort -z \
        | xargs -0 cat | tr -s ' \n' ' ' \
        | grep -oE '\bimpl\b *(<[^{]*>)? *([a-z_:]*::)?(Clone|Copy|PartialEq|Eq|PartialOrd|Ord|Hash|Debug|Default)\b(<[^{]*>)? for [^{]*' \
        | sed 's/ *$//' | sort
}

# `Hash16` has its own order, because IDs are ordered as numbers; a clause (`cmp`) and laws cover that. `Part` has its
# own `{:?}` text, which shows its own bytes and not those that it shares with other packets; a test covers that.
cat > listed << 'END'
impl Ord for Hash16
impl PartialOrd for Hash16
impl fmt::Debug for Part
END

by_hand "$top/crates" > found
if cmp -s listed found; then
    echo "ok: $(wc -l < found) impls by hand of what is derived elsewhere, each listed"
else
    failed=1
    echo "FAILED: impls by hand of what is derived elsewhere: $(diff listed found | grep '^[<>]' | head -n 9 | tr '\n' ' ')"
fi

# Each of these lines is put into a copy, and has to be found there.
mkdir -p crates/one/src
sees() {
    printf '%s\n' "$1" > crates/one/src/lib.rt
    if [ -n "$(by_hand crates)" ]; then
        echo "ok: seen by this check: $1"
    else
        failed=1
        echo "FAILED: not seen by this check: $1"
    fi
}
sees 'impl PartialEq for SetFault { fn eq(&self, _other: &SetFault) -> bool { true } }'
sees 'impl<T> Clone for Sequence<T> {'
sees 'impl std::hash::Hash for Hash16 {'
sees 'impl
    fmt::Debug
    for Hash16
{'
exit $failed
