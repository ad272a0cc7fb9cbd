#!/usr/bin/env bash
# Times the window, and `md5` for comparison. It proves main.rt.txt as src/main.rt of a crate of its own over the
# libraries that `make test` left, builds it and runs it. It prints picoseconds of the processor for each byte. It takes
# about three minutes. It isn't part of the gate: a file whose name ends in .rt would have to be in a crate.
set -euo pipefail
here=$(cd "$(dirname "$0")" && pwd)
crates=$(cd "$here/../../../crates" && pwd)
kit=$(dirname "$(dirname "$(readlink -f "$(command -v rt)")")")
room=$(mktemp -d)
trap 'rm -rf "$room"' EXIT
mkdir "$room/src"
cp "$here/main.rt.txt" "$room/src/main.rt"
cd "$room"

words=(--extern "std=$kit/rlibs/std.rlib" -L "dependency=$kit/rlibs" --extern "md5=$kit/rlibs/md5.rlib")
for folder in "$crates"/*/out/rlib; do
    words+=(-L "dependency=$folder")
done
for crate in parfield parsalvage parset parwindow; do
    words+=(--extern "$crate=$crates/$crate/out/rlib/$crate.rlib")
done
logic=(--antt-project "$kit/rattle/logic/antt-project.json" --logic-built "$kit/logic_built")
code=(--toolchain "$kit/toolchain" --backend llvm)
"$kit/bin/rattle" build --crate-name timing src/main.rt "${words[@]}" "${logic[@]}" "${code[@]}" \
    -o timing.o > log || { tail -n 20 log; exit 1; }
"$kit/bin/rattle-link" --target x86_64-unknown-linux-gnu --toolchain "$kit/toolchain" \
    -o timing timing.o "$kit/c/libos_c.a" "$kit/c/liblibc_c.a" 2> log || { cat log; exit 1; }
./timing
