#!/usr/bin/env bash
# If this fails, an example in the README of a crate isn't what the gate runs, so it may no longer compile.
#
# It compares the READMEs with the sources of the tests, and runs no program.
set -uo pipefail
tools=$(cd "$(dirname "$0")/.." && pwd)
top=$(dirname "$tools")
work=$(mktemp -d) || exit 1
trap 'rm -rf "$work"' EXIT
failed=0
export PYTHONDONTWRITEBYTECODE=1

python3 "$tools/checks/readmes.py" "$top" || failed=1

# refuses NAME FILE SED: the comparison fails after this change to a file in a copy.
refuses() {
    rm -rf "$work/crates"
    (cd "$top" && cp --parents crates/*/README.md crates/*/args crates/*/src/tests/readme/*.rt "$work") || exit 1
    sed -i "$3" "$work/crates/$2" || exit 1
    if ! python3 "$tools/checks/readmes.py" "$work" > "$work/said" 2>&1 && grep -q '^FAILED: crates\|^FAILED: the \(code\|gate\)' "$work/said"; then
        echo "ok: refused: $1"
    else
        failed=1
        echo "FAILED: not refused: $1: $(head -c 300 "$work/said")"
    fi
}
refuses "a line that only the README has" parset/README.md 's/^    Ok(set.slices().len())$/    Ok(set.files().len())/'
refuses "a line that only the test has" packets_tests/src/tests/readme/of_parset.rt 's/^    Ok(set.slices().len())$/&\n    \/\/ of the set/'
refuses "an import that only the README has" parset/README.md 's/^use parsalvage::Kept;$/&\nuse parsalvage::Part;/'
refuses "a second block of code" parset/README.md '$a\\n```rust\nlet set = 1;\n```'
refuses "a block of code that isn't closed" parset/README.md '$a\\n```rust\nlet set = 1;'
refuses "a block of code in a README without a test" parv/README.md '$a\\n```rust\nlet set = 1;\n```'
refuses "a README without its code" parset/README.md '/^```rust$/,/^```$/d'
refuses "a test that doesn't call the example" packets_tests/src/tests/readme/of_parset.rt 's/&slice_count(/\&other_count(/'
refuses "code without a test" packets_tests/src/tests/readme/of_parset.rt '/^#\[test\]$/d'
refuses "another call of the program" parv/README.md 's/^    \$ out\/parv packets /    $ out\/parv set /'
exit $failed
