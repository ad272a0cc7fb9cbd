#!/usr/bin/env bash
# If this fails, parv does the same hashing or searching more than once, and takes longer than docs/PERFORMANCE.md says.
#
# It counts, in runs of the built program, how many blocks of 64 bytes go through MD5, how many windows are hashed, how
# many indexes are made, how often a search goes on, how often tails that look ahead are stopped, and how many arguments
# are taken. The expected numbers follow from the files, by the definitions of the formats and of MD5. Only turns, pieces
# and tables of zeros have a bound instead.
. "$(dirname "$0")/with/wants.sh"
cd "$work" || exit 1
gcc -O1 -Wall -Wextra -o entries "$tools/digests/entries.c" || exit 1
nm "$parv" > symbols || exit 1

# place NAME FUNCTION..: counts, as NAME, how often the program enters the first of these functions that it has, for
# whatever types that function is compiled. (In a program that was built in another way, one function may be inlined
# into another, or be left out. Then the rows that count it fail, and the others go on.)
places=()
place() {
    local name=$1 function found=
    shift
    for function; do
        found=$(awk -v name="$function" '{ address = $1; sub(/^[0-9a-f]+ [tT] /, ""); sub(/::<.*/, "") }
            $0 == name { printf "%s%s", between, address; between = "," }' symbols)
        [ -z "$found" ] || break
    done
    if [ -z "$found" ]; then
        fails "$name can't be counted: the program has no function $*"
    else
        places+=("$name=$found")
    fi
}
place blocks md5::compress::compress
place digests parwindow::window::Window::hash
place windows parwindow::window::Window::with_tails
place indexes parwindow::index::Index::of
place turns parfind::tracks::track::Track::slide_until_crc
place halves parwindow::crcs::zero_run::ZeroRun::new
place marks parshelf::shelves::names::list_mark
place pieces parwindow::tails::stream::Stream::piece_from
place fronts parwindow::window::Window::next_tail
place words clap::parser::parse::Parser::take_word

PYTHONPATH=$tools python3 "$tools/checks/digests_sets.py" || exit 1
set=$(< s.id)

# blocks_of LENGTH..: prints how many blocks MD5 makes of messages of these lengths. After each message come at least
# one byte and the length in eight bytes.
blocks_of() {
    local all=0 length
    for length; do
        all=$((all + (length + 8) / 64 + 1))
    done
    echo $all
}

# costs NAME WORDS LAST NUMBER..: wants LAST as the last line of the run with these words, and each NUMBER to hold of
# it. A NUMBER is NAME=COUNT, or NAME<=COUNT if the formats give only a bound.
costs() {
    local name=$1 words=$2 last=$3 number of count wrong=
    shift 3
    rm -f counts
    # shellcheck disable=SC2086 # (these are words)
    ./entries counts "${places[@]}" -- "$parv" $words > text 2> line < /dev/null
    [ "$(tail -n 1 text)" = "$last" ] || wrong="$(tail -n 1 text)$(head -c 200 line), "
    for number; do
        of=${number%%[<=]*}
        count=$(awk -v of="$of" '$1 == of { print $2 }' counts)
        case $number in
        *"<="*) [ "${count:-x}" -le "${number#*<=}" ] 2> line ;;
        *) [ "$count" = "${number#*=}" ] ;;
        esac || wrong+="$of ${count:-not counted} and not ${number#"$of"}, "
    done
    if [ -z "$wrong" ]; then
        echo "ok: $name: $*"
    else
        fails "$name: ${wrong%, }: parv $words"
    fi
}

# A packet is hashed once, from the ID of its set on, that is without its first 32 bytes.
costs "each packet once" "packets two.par2" "packets 2" "blocks=$(blocks_of 72 20032)"
costs "a packet whose last byte is another once" "packets wrong.par2" "packets 0" "blocks=$(blocks_of 20032)"
costs "a packet over the end of a piece once" "packets late.par2" "packets 1" "blocks=$(blocks_of 20032)"
costs "nothing of a packet longer than its file" "packets cut.par2" "packets 0" blocks=0
costs "a packet within another, and the other" "packets inner.par2" "packets 2" "blocks=$(blocks_of 72 256)"
costs "each argument once, those that aren't opened too" "packets two.par2 x y z" "packets 2" words=4
costs "a file that is named twice twice" "packets two.par2 two.par2" "packets 4" "blocks=$(blocks_of 72 20032 72 20032)"

# The set has a Main body of 60 bytes, three descriptions of 60 bytes with their names, and checksums of 3, 1 and 13
# slices. The ID of a set is the MD5 of its Main body. That is hashed when a Main packet is chosen, and once more for
# each Main packet of the set to find the rejected ones.
bare=$(blocks_of 92 92 92 92)
packets=$((bare + $(blocks_of 108 68 308)))
main=$(blocks_of 60)
costs "the packets of a set" "packets s.par2" "packets 7" blocks=$packets digests=0 windows=0
costs "a set, whose Main body is hashed twice" "set s.par2" "have 0" blocks=$((packets + 2 * main)) digests=0 windows=0
costs "its packets twice" "set s.par2 s.par2" "have 0" blocks=$((2 * packets + 3 * main))
base=$((packets + 2 * main))

# A scanned file is hashed once if it has the length of a file of the set. Nothing else is hashed if all files are
# complete, or if no missing slice has checksums.
whole=$((base + $(blocks_of 20000 3000 100000)))
costs "files that are complete" "verify s.par2 a b c" "result complete" blocks=$whole digests=0 windows=0 \
    indexes=1 turns=0
costs "another file of the length of one, and one of no such length" "verify s.par2 a other b zeros c" \
    "result complete" "blocks=$((whole + $(blocks_of 20000)))" digests=0 windows=0 turns=0
costs "one of them twice" "verify s.par2 a a b c" "result complete" "blocks=$((whole + $(blocks_of 20000)))"
costs "the same with --tails" "verify --tails s.par2 a b c" "result complete" blocks=$whole digests=0 windows=0 turns=0
costs "files without checksums of slices" "verify n.par2 a cc" "result impossible" \
    "blocks=$((bare + 2 * main + $(blocks_of 20000 100000)))" digests=0 windows=0 turns=0

# If some slices are known to be there before the search and others aren't, a second index has only the missing ones. A
# window is hashed once at each place where its CRC-32 is that of a missing slice: these are the other 12 of the 13
# slices of `c`, and the window that has only the CRC-32 of the seventh. `find` looks for all slices, wherever they are.
# With --tails, a second index has the missing full-length slices, even if none is found, and a third one has the short
# slices that are still missing then, if there are any.
slice=$(blocks_of 8192)
for tails in "" --tails; do
    with=${tails:+, with $tails}
    none=1
    [ -z "$tails" ] || none=3
    costs "a byte is another$with" "verify -q $tails s.par2 a b cc" "result impossible" \
        blocks=$((whole + 12 * slice)) digests=12 windows=1 indexes=2
    costs "no file is whole$with" "verify -q $tails s.par2 cc" "result impossible" digests=12 windows=1 indexes=$none
    costs "a slice that has its CRC-32 alone$with" "verify -q $tails s.par2 a b cf" "result impossible" \
        blocks=$((whole + 13 * slice)) digests=13 windows=1
    costs "a file that isn't there$with" "verify -q $tails s.par2 a b" "result impossible" \
        "blocks=$((base + $(blocks_of 20000 3000)))" digests=0 windows=1
    costs "what is found, 3 slices, 1 and 13$with" "find $tails s.par2 a b c" end \
        blocks=$((base + 17 * slice)) digests=17 windows=1
    costs "one of them by its CRC-32 alone$with" "find $tails s.par2 a b cf" end \
        blocks=$((base + 17 * slice)) digests=17 windows=1
    costs "nothing$with" "find $tails s.par2 other" end blocks=$base digests=0 windows=1
done
# With --tails, a short slice is tested right after the slice before it. A file that is shorter than a slice is tested
# where it may begin. So each of the 17 slices is hashed once, and then no short one is missing. In bytes that belong to
# no file, the first ones are gone over 64 times, and once more for every 8,192 bytes.
for image in image joined; do
    costs "each slice of this $image" "verify -q --tails s.par2 $image" "result possible" digests=17 windows=1 indexes=2
done
costs "files that may begin in 4,000 blocks" "verify -q --tails s.par2 a c blocks" "result impossible" \
    "fronts<=$((64 + (20000 + 100000 + 2048000) / 8192))" indexes=3
costs "two slices of the same bytes at one place" "find twins.par2 twin" end digests=1 windows=1

# The fingerprint of a file list is made once for each cursor that is read or written. Here it covers one name and
# length, in 17 bytes.
mark=$(blocks_of 17)
list=$(printf '\001\0\0\0\0\0\0\0c\240\206\001\0\0\0\0\0' | md5sum)
at=2:$set:${list%% *}:0
costs "no mark where no cursor is written" "find s.par2 c" end blocks=$((base + 13 * slice)) marks=0
costs "a mark where a limit ends it" "find --limit 2 s.par2 c" "cursor $at:8192:6" \
    blocks=$((base + 2 * slice + mark)) digests=2 marks=1
costs "a mark where it begins at a cursor" "find --cursor $at:8192:6 s.par2 c" end \
    blocks=$((base + 12 * slice + mark)) marks=1

# At the first window of zeros, the slice of zeros is found. From then on no missing slice has this CRC-32, so no other
# window is hashed.
costs "a run of equal windows" "verify -q zero.par2 zeros" "result impossible" digests=1

# The survey compares a window in vain if its CRC-32 belongs to slices of which none is missing. After slices / 2 +
# 1,024 such windows, the next one makes the survey replace its index by one of the slices that are still missing,
# provided that it has found more slices since it made the last index. So content that repeats soon stops it no more.
# The first index has all slices. If a file is whole, the survey begins with a second one.
#
# most_turns SLICES FOUND INDEXES LENGTH..: prints the greatest possible number of turns, if FOUND windows are missing
# slices and INDEXES are made on the way. A turn ends at a stop, after 4,096 bytes of a file, or at the file's end.
most_turns() {
    local turns=$(($2 + $3 * ($1 / 2 + 1024 + 1))) length
    shift 3
    for length; do
        turns=$((turns + (length + 4095) / 4096 + 1))
    done
    echo $turns
}
few=()
for at in {0..19}; do few+=("few$at"); done
# With --tails, the first round has a second index even if no file is whole. No slice of these sets is short, so there
# is no second round.
for tails in "" --tails; do
    with=${tails:+, with $tails}
    first=1
    [ -z "$tails" ] || first=2
    costs "a run of zeros$with" "verify -q $tails zero.par2 zeros" "result impossible" indexes=$((first + 1)) \
        "turns<=$(most_turns 2 1 1 10000)"
    costs "what is missing after a run of zeros$with" "verify -q $tails zero.par2 last" "result possible" digests=2 \
        indexes=$((first + 1)) "turns<=$(most_turns 2 2 1 10064)"
    costs "a run of a thousand zeros$with" "verify -q $tails zero.par2 thousand" "result impossible" digests=1 \
        indexes=$first
    costs "zeros in twenty files$with" "verify -q $tails zero.par2 ${few[*]}" "result impossible" digests=1 \
        indexes=$((first + 1)) "turns<=$(most_turns 2 1 1 "${few[@]/*/600}")"
    costs "a run of zeros and one of another byte$with" "verify -q $tails both.par2 both" "result impossible" \
        digests=2 indexes=$((first + 2)) "turns<=$(most_turns 3 2 2 20000)"
    costs "a run of zeros, and a file that is whole$with" "verify -q $tails both.par2 y zeros" "result impossible" \
        digests=1 indexes=3 "turns<=$(most_turns 3 1 1 64 10000)"
    costs "a period of 61 bytes, whose 61 windows are slices$with" "verify -q $tails period.par2 period" \
        "result impossible" digests=61 indexes=$((first + 1)) "turns<=$(most_turns 62 61 1 24400)"
    costs "two hundred slices, each twice$with" "verify -q $tails others.par2 others" "result impossible" digests=200 \
        indexes=$first
done
costs "zeros into which no slice fits" "verify -q unfit.par2 unfit" "result impossible" digests=0 indexes=1
for tails in "" --tails; do
    costs "a search of them${tails:+, with $tails}" "find $tails unfit.par2 unfit" end digests=0
done

# A search goes on over what is read ahead, at most 4,096 bytes: so it takes five turns in a file of 20,000 bytes, and
# more only if it finds a slice.
costs "a search by pieces" "find s.par2 other" end "turns<=5"
costs "the same for a missing file" "verify -q s.par2 a b other" "result impossible" "turns<=14"

# Tails look ahead over up to 512 bytes in one go. For each stretch, four tails ask for eight pieces: for each tail the
# bytes that leave its window and those that enter it. They are stopped where the register of one of them may be that of
# a slice, which is rare: half as many pieces again are enough for it. If a window forgot its pace, each of the 16 reads
# of 4,096 bytes would begin with stretches of 1, 2, 4 .. bytes, and twice as many would be asked for.
stretches=$((65536 / 512))
costs "four tails" "find --tails tails.par2 long" end "pieces<=$((stretches * 8 * 3 / 2))"
# 64 tails ask for no pieces, since one register runs along for all of them. Each has its own register only in stretches
# of less than 16 bytes. A search begins with a byte that is pushed, and with stretches of 2, 4 and 8 bytes.
costs "64 tails" "find --tails more_tails.par2 long" end "pieces<=$((3 * 64 * 2))"

# The effect of zeros after a window on its register is worked out by halving their number: for 8,192, for 8,193, and
# for 1.
costs "tables by halves" "find s.par2 other" end "halves<=$((15 + 15 + 2))"
exit $failed
