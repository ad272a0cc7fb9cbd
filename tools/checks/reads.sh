#!/usr/bin/env bash
# If this fails, parv reads bytes more often than docs/PERFORMANCE.md says, which takes long on a disk or a network.
#
# It records which files a run opens and reads, in which order, and the offset and size of each read. The expected reads
# follow from the positions of packets and slices in files that are made for this check.
. "$(dirname "$0")/with/recording.sh"

# reads_of: prints the opened files in order, and then the reads. Reads of one file that follow one another directly are
# one line: the file, the offset of the first read, and the sizes. 4096*3 means three reads of 4,096 bytes. If a read
# returned less than it asked for, both numbers are given, separated by a slash.
reads_of() {
    awk 'function shown() { return size (times > 1 ? "*" times : "") }
    $1 == "open" { path[$4] = $2; opened = opened " " $2 }
    $1 == "pread" {
        asked = $4 ($5 == $4 ? "" : "/" $5)
        if (line != "" && $2 == file && $3 == end && asked == size) times++
        else {
            if (line != "" && $2 == file && $3 == end) line = line " " shown()
            else {
                if (line != "") lines = lines line " " shown() "\n"
                line = path[$2] " " $3
            }
            size = asked
            times = 1
        }
        file = $2
        end = $3 + $5
    }
    END { printf "%s\n%s%s", "open" opened, lines, line == "" ? "" : line " " shown() "\n" }' calls
}

# reads NAME WORDS LAST OPENED LINES..: wants the run with these words to end with this line, open these files and make
# these reads.
reads() {
    local name=$1 words=$2 last=$3
    { printf 'open %s\n' "$4"; [ $# -lt 5 ] || printf '%s\n' "${@:5}"; } > wanted
    # shellcheck disable=SC2086 # (these are words)
    record $words
    reads_of > found
    if [ "$(tail -n 1 text)" = "$last" ] && cmp -s found wanted; then
        echo "ok: $name"
    else
        fails "$name: $(tail -n 1 text), $(diff found wanted | tr '\n' ';')"
    fi
}

# salvages NAME FILE PACKETS LINE..: wants `packets` to list this number of packets of the file, and to make these
# reads.
salvages() {
    reads "$1" "packets $2" "packets $3" "$2" "${@:4}"
}

PYTHONPATH=$tools python3 "$tools/checks/reads_sets.py" || exit 1
set=$(< s.id)

# Packets are looked for in pieces of 65,536 bytes. Each piece begins with the last seven bytes of the one before, as
# long as a header fits after those.
salvages "nothing of an empty packet file" zeros0.par2 0
salvages "nothing of 63 bytes" zeros63.par2 0
salvages "64 bytes once" zeros64.par2 0 "zeros64.par2 0 64"
salvages "no second piece for 63 bytes" zeros65592.par2 0 "zeros65592.par2 0 65536"
salvages "a second piece for 64" zeros65593.par2 0 "zeros65593.par2 0 65536 57"
salvages "four pieces: 65,536 and twice 65,529, and 3,406 are 200,000" zeros200000.par2 0 \
    "zeros200000.par2 0 65536 65529*2 3406"
# Bytes in the current piece aren't read again: no header, no body, and nothing that is hashed.
salvages "packets inside a piece, and one that is none" inside.par2 30 "inside.par2 0 50000"
salvages "a packet that ends with the piece" at65472.par2 1 "at65472.par2 0 65536 164"
# If only the last byte comes after the piece, that byte is hashed and the body is read again; a second piece of 8 bytes
# isn't searched.
salvages "the last byte of a packet after a piece" end65273.par2 1 "end65273.par2 0 65536 1" "end65273.par2 65337 200"
# A header over the end of the piece is read again, 64 bytes. Of the 72 bytes that are hashed, from 65,532 on, the 68
# after the piece are read. Then the body is read.
salvages "a header over the end of a piece" at65500.par2 1 \
    "at65500.par2 0 65536" "at65500.par2 65500 64" "at65500.par2 65536 68" "at65500.par2 65564 40" \
    "at65500.par2 65536 164"
salvages "a body right after a piece" end65472.par2 1 \
    "end65472.par2 0 65536 200" "end65472.par2 65536 200" "end65472.par2 65536 200"
salvages "the last byte of a header after a piece" end65473.par2 1 \
    "end65473.par2 0 65536" "end65473.par2 65473 64" "end65473.par2 65536 201" "end65473.par2 65537 200" \
    "end65473.par2 65536 201"
# The first of the 232 bytes that are hashed is the first after the piece, or the second.
salvages "the hashed bytes right after a piece" end65504.par2 1 \
    "end65504.par2 0 65536" "end65504.par2 65504 64" "end65504.par2 65536 232" "end65504.par2 65568 200" \
    "end65504.par2 65536 232"
salvages "the hashed bytes a byte after a piece" end65505.par2 1 \
    "end65505.par2 0 65536" "end65505.par2 65505 64" "end65505.par2 65537 232" "end65505.par2 65569 200" \
    "end65505.par2 65536 233"
# The magic ends with the piece, so all bytes that are hashed come after the piece.
salvages "the last magic of a piece" at65528.par2 1 \
    "at65528.par2 0 65536" "at65528.par2 65528 64" "at65528.par2 65560 72" "at65528.par2 65592 40" \
    "at65528.par2 65536 164"
salvages "the first magic of the next piece" at65529.par2 1 "at65529.par2 0 65536 164"
salvages "a packet that is longer than the file" beyond.par2 0 \
    "beyond.par2 0 65536" "beyond.par2 65500 64" "beyond.par2 65536 164"
# 504 of the 20,032 bytes that are hashed are in the piece. The other 19,528 are read in pieces of 8,192, and the body
# in one go.
salvages "a body over the end of a piece" body.par2 1 \
    "body.par2 0 65536 8192*2 3144" "body.par2 65064 20000" "body.par2 65536 24464"
salvages "no body of what is no packet" wrong.par2 0 "wrong.par2 0 65536 8192*2 3144" "wrong.par2 65536 24464"
salvages "no recovery data but for its hash" slice.par2 1 \
    "slice.par2 0 65536 8192*2 3148" "slice.par2 65536 24464"
# 34 of the 1,036 bytes that are hashed are in the piece, and two of the first four bytes of the body.
salvages "an exponent over the end of a piece" front.par2 1 \
    "front.par2 0 65536 1002" "front.par2 65534 4" "front.par2 65536 1164"
# If bodies overlap, each byte is read once.
salvages "a packet inside another's body, in the next piece" inner66000.par2 2 \
    "inner66000.par2 0 65536 2528" "inner66000.par2 64064 4000" "inner66000.par2 65536 4464"
salvages "the same over the end of the piece" inner65400.par2 2 \
    "inner65400.par2 0 65536 2528" "inner65400.par2 64064 4000" "inner65400.par2 65536 328" \
    "inner65400.par2 65536 4464"
salvages "a packet over the end of another" overlap.par2 2 \
    "overlap.par2 0 65536 2592" "overlap.par2 65128 3000" "overlap.par2 65536 4464"
# After the first piece, 120 pieces of 8,192 bytes and one of 64 are hashed; the same bytes are searched in 16 pieces.
salvages "a body of 1,048,576 bytes" limit.par2 1 \
    "limit.par2 0 65536 8192*120 64" "limit.par2 64 1048576" "limit.par2 65536 65529*15 169"
salvages "a body of 1,048,580 bytes, which isn't held" above.par2 1 \
    "above.par2 0 65536 8192*120 68" "above.par2 65536 65529*15 173"

# Each packet file that is named is opened and read once, in order, and before any scanned file.
reads "packets of three names" "packets v.par2 x.bin w.par2 v.par2" "packets 12" "v.par2 w.par2 v.par2" \
    "v.par2 0 416" "w.par2 0 416" "v.par2 0 416"
body=("body.par2 0 65536 8192*2 3144" "body.par2 65064 20000" "body.par2 65536 24464")
reads "a set" "set a body.par2 s.par2" "have 0" "body.par2 s.par2" "${body[@]}" "s.par2 0 1076"

# A search reads 4,096 bytes ahead, from its cursor on, and each byte once: 20,000, 3,000 and 100,000 bytes. The
# shortest slice has 1,696 bytes.
a=("a 0 4096*4 3616")
b=("b 0 3000")
c=("c 0 4096*24 1696")
for tails in "" " --tails"; do
    reads "a search of three files$tails" "find$tails a b s.par2 c" end "s.par2 a b c" \
        "s.par2 0 1076" "${a[@]}" "${b[@]}" "${c[@]}"
    reads "nothing of a file into which no slice fits$tails" "find$tails s.par2 other1695 other1696" end \
        "s.par2 other1695 other1696" "s.par2 0 1076" "other1696 0 1696"
done
reads "a search behind packets over the end of a piece" "find body.par2 s.par2 a" end "body.par2 s.par2 a" \
    "${body[@]}" "s.par2 0 1076" "${a[@]}"
reads "a search from a cursor on" "find --cursor $set:1:5000:0 s.par2 a c" end "s.par2 a c" \
    "s.par2 0 1076" "c 5000 4096*23 792"
reads "a cursor behind the last place of a slice" "find --cursor $set:0:18305:0 s.par2 a c" end "s.par2 a c" \
    "s.par2 0 1076" "${c[@]}"
# The fingerprint in a cursor of the files s.par2 and c.
mark=$(printf '\001\0\0\0\0\0\0\0c\240\206\001\0\0\0\0\0' | md5sum)
for limit in 1 2 3; do
    reads "the window of sighting $limit and no more" "find --limit $limit s.par2 c" \
        "cursor 2:$set:${mark%% *}:0:$((8192 * (limit - 1))):$((limit + 4))" "s.par2 c" "s.par2 0 1076" \
        "c 0 4096*$((2 * limit))"
done
reads "a slice at each place" "find zero.par2 zeros" end "zero.par2 zeros" "zero.par2 0 316" "zeros 0 4096*2 1808"

# `verify` hashes each file that has the length of a file of the set, in pieces of 32,768. Then it searches all files
# until each missing slice is found, and reads up to the end of the last one's window.
whole=("s.par2 0 1076" "a 0 20000" "b 0 3000" "c 0 32768*3 1696")
reads "files that are complete" "verify s.par2 a other1696 b c" "result complete" "s.par2 a other1696 b c" "${whole[@]}"
reads "the same twice" "verify s.par2 a a b c" "result complete" "s.par2 a a b c" \
    "s.par2 0 1076" "a 0 20000" "${whole[@]:1}"
reads "a damaged file, by one search of all" "verify -q s.par2 a b cc" "result impossible" \
    "s.par2 a b cc" "${whole[@]:0:3}" "cc 0 32768*3 1696" "${a[@]}" "${b[@]}" "cc 0 4096*24 1696"
# With --tails, the first round skips `b`, which is too short for a slice of 8,192 bytes. It finds the short slice of
# `c` after the slice before it, so the second round reads nothing.
reads "a damaged file, by one round" "verify --tails -q s.par2 a b cc" "result impossible" \
    "s.par2 a b cc" "${whole[@]:0:3}" "cc 0 32768*3 1696" "${a[@]}" "cc 0 4096*24 1696"
reads "a file inside another whose last slice isn't seen" "verify s.par2 a b j" "result impossible" "s.par2 a b j" \
    "${whole[@]:0:3}" "${a[@]}" "${b[@]}" "j 0 4096*39 256"
reads "a search up to the last slice, of 8,192 bytes from 108,304 on" "verify --tails s.par2 a b j" "result possible" \
    "s.par2 a b j" "${whole[@]:0:3}" "${a[@]}" "j 0 4096*29"
reads "a search that is over in the first file" "verify s.par2 k a c" "result possible" "s.par2 k a c" \
    "s.par2 0 1076" "a 0 20000" "c 0 32768*3 1696" "k 0 4096*4"
reads "nothing of a file into which only slices fit that are found" "verify s.par2 other1696 a c" "result impossible" \
    "s.par2 other1696 a c" "s.par2 0 1076" "a 0 20000" "c 0 32768*3 1696" "${a[@]}" "${c[@]}"
reads "no search for slices without their sums" "verify n.par2 a c other20000" "result impossible" \
    "n.par2 a c other20000" "n.par2 0 496" "a 0 20000" "c 0 32768*3 1696" "other20000 0 20000"
reads "no search for slices without their sums by find" "find n.par2 a c" end "n.par2 a c" "n.par2 0 496"

# Each of these injected bugs makes other reads, for each command.
for words in "packets body.par2" "set body.par2 s.par2" "find s.par2 a c" "verify -q s.par2 a b cc"; do
    # shellcheck disable=SC2086 # (these are words)
    record $words
    reads_of > wanted
    for fault in "one byte a read" "a piece of half the size" "each read made twice" "64 bytes read again" \
        "all read again" "opened twice"; do
        # shellcheck disable=SC2086 # (these are words)
        WRONG=$fault record $words
        reads_of > found
        if [ "$status" -lt 124 ] && ! cmp -s found wanted; then
            echo "ok: it is seen: $fault: parv $words"
        else
            fails "it isn't seen: $fault: parv $words"
        fi
    done
done
exit $failed
