#!/usr/bin/env bash
# If this fails, a search that should take seconds may take hours, for example over files full of zeros.
#
# It counts the instructions of runs, by valgrind, and compares runs with each other. A run over many slices and many
# bytes takes little more than two runs together of which one has few slices and the other has few bytes; otherwise each
# slice is looked at for each byte. The same holds for the files of a set and the scanned files. Further runs compare long
# short slices with shorter ones, a search with an MD5, and 60,000 arguments with 6,000.
. "$(dirname "$0")/with/wants.sh"
cd "$work" || exit 1

if ! valgrind --tool=none true > "$said/valgrind" 2>&1; then
    echo "not run: counts of instructions: there is no valgrind"
    exit 0
fi
PYTHONPATH=$tools python3 "$tools/checks/costs_sets.py" || exit 1

# counted WORDS: runs parv with these words, and sets `count` to the number of its instructions.
counted() {
    # shellcheck disable=SC2086 # (these are words)
    timeout "$most" valgrind --tool=cachegrind --cache-sim=no --cachegrind-out-file=/dev/null --log-file=counted \
        "$parv" $1 > text 2> line < /dev/null
    count=$(sed -n 's/.* I *refs: *//p' counted | tr -d ,)
}

# takes NAME LAST PERCENT WORDS WORDS..: wants LAST as the last line of the run with the first words, and at most PERCENT
# of the instructions that the runs with the other words take together.
takes() {
    local name=$1 last=$2 percent=$3 words together=0 count
    for words in "${@:5}"; do
        counted "$words"
        together=$((together + count))
    done
    counted "$4"
    if [ "$(tail -n 1 text)" = "$last" ] && [ $((100 * ${count:-together})) -lt $((percent * together)) ]; then
        echo "ok: $name: $((100 * count / together)) % of the instructions"
    else
        fails "$name: ${count:-no count} instructions, and not $percent % of $together: $(tail -n 1 text) $(head -c 200 line)"
    fi
}

# Equal slices, in files that consist of them. No scanned file is whole in the second row, so no slice is known to be
# there when the search begins.
impossible="result impossible"
for words in "zero one odd" more "ones more" "--tails ones more"; do
    takes "many equal slices: $words" "$impossible" 400 "verify -q equal.par2 $words" \
        "verify -q equal.par2" "verify -q three.par2 $words"
done
takes "zeros and 60 lengths, with --tails" "$impossible" 150 "verify -q --tails lengths.par2 zeros" \
    "verify -q --tails lengths.par2" "verify -q --tails few_lengths.par2 zeros"
takes "short files of zeros, with --tails" "$impossible" 200 "verify -q --tails short_files.par2 between" \
    "verify -q --tails short_files.par2" "verify -q --tails few_short_files.par2 between"

takes "no slice without checksums in 1 TiB" end 150 "find bare.par2 hole" "find bare.par2 zero"
takes "no slice of 32,768 in 4 MiB" end 110 "find many.par2 random" "find many.par2" "find single.par2 random"
takes "a search of 4 MiB, and their MD5" end 400 "find single.par2 random" "verify -q whole.par2 random"
takes "32,768 sightings of as many slices" end 125 "find there.par2 there" \
    "find there.par2" "find few_there.par2 few_there"
takes "no tail of four" end 600 "find --tails short.par2 random" "find short.par2 random"
takes "no tail of four of 60 KiB, and of 1 KiB" end 110 "find --tails long.par2 random" "find --tails short.par2 random"

# `packets` goes once over arguments that it doesn't open.
takes "60,000 words" "packets 3" 1200 "packets single.par2 $(echo n{1..60000})" \
    "packets single.par2 $(echo n{1..6000})"

# The state of a missing file is looked up, so the number of other scanned files makes no difference.
for count in 4096 16; do "$tools/make/big_set.py" "files$count" $count 1 > /dev/null; done
ulimit -S -n 3100 2> "$said/limit" || rm others/[6-9]?? others/????
takes "the states of 4,096 files beside $(find others -type f | wc -l) others" "$impossible" 110 \
    "verify -q files4096/*.par2 others/*" "verify -q files4096/*.par2" "verify -q files16/*.par2 others/*"
exit $failed
