#!/usr/bin/env bash
# If this fails, parv may read the wrong bytes, open a device or a pipe, or write to a file: no proof covers the calls
# of the operating system.
#
# It records the calls of the built program on files: how and in which order it opens them, where it takes their kind
# and length from, and which bytes each read asks for. It also checks that parv makes up no bytes after an early end of
# a file, and doesn't repeat a read that failed. A library then makes the program misbehave in each way that is named
# here, and each must change the recorded run.
. "$(dirname "$0")/with/recording.sh"
set=617cdc72ba53d94fe713fea2ae18f776
file=e345eacbe656c0e6fd20ed63cb7b062c
# The flags O_RDONLY, O_CLOEXEC and O_NOCTTY; and the flag with which statx asks about an open file.
read_only=80100 of_open=1000

# opening FILE NUMBER: prints the calls that open this file and give it this number.
opening() {
    printf '%s\n' "statx $1 0" "open $1 $read_only $2" "statx $2 $of_open"
}

# Whether the recorded run ended with $status_wanted, wrote $text_wanted and $line_wanted, made the calls in
# $calls_wanted, and closed each file once.
is_wanted() {
    [ "$status" = "$status_wanted" ] && [ "$(< text)" = "$text_wanted" ] && [ "$(< line)" = "$line_wanted" ] \
        && [ "$(grep -v '^close ' calls)" = "$calls_wanted" ] \
        && cmp -s <(awk '$1 == "open" && $4 { print $4 }' calls) <(sed -n 's/^close //p' calls | sort -n)
}

# asks NAME STATUS TEXT LINE CALLS WORDS..: wants the run with these words to end like this and to make these calls,
# apart from those that close files.
asks() {
    name=$1 status_wanted=$2 text_wanted=$3 line_wanted=$4 calls_wanted=$5
    words=("${@:6}")
    record "${words[@]}"
    if is_wanted; then
        echo "ok: $name"
    else
        fails "$name: status $status, $(head -c 300 text) $(head -c 300 line), $(diff calls - <<< "$calls_wanted" \
            | head -20 | tr '\n' ';')"
    fi
}

# sees FAULT..: wants the same run to differ if the library causes this fault, for each of them.
sees() {
    local fault
    for fault; do
        WRONG=$fault record "${words[@]}"
        if [ "$status" -ge 124 ] || is_wanted; then
            fails "$name: it isn't seen: $fault"
        else
            echo "ok: $name: it is seen: $fault"
        fi
    done
}

# calls_known PROGRAM: whether each function that the program calls in the C library is recorded here or doesn't concern
# files, and it calls the system in no other way. (The functions in `others` concern memory, and the start and end of
# the program.)
on_files='open|statx|pread|close|(__)?write'
others='[mc]alloc|realloc|posix_memalign|aligned_alloc|free|mem(cpy|move|set|cmp)|bcmp|strlen|__errno_location'
others+='|__libc_start_main|__sysv_signal|__x86_get_cpuid_feature_leaf'
calls_known() {
    called=$(nm -D --undefined-only "$1" | awk '$1 == "U" { sub(/@.*/, "", $2); print $2 }' \
        | grep -Evx "$on_files|$others")
    called+=$(objdump -d "$1" | grep -Ewo 'syscall|sysenter|int +[$]0x80')
    [ -z "$called" ]
}

if calls_known "$parv"; then
    echo "ok: the program calls nothing on files that isn't recorded"
else
    fails "the program calls more than is recorded: $called"
fi
for body in 'rename("a", "b")' '({ __asm__("syscall"); 0; })'; do
    gcc -w -x c -o other - <<< "int main(void) { return $body; }" || fails "no compiler"
    if calls_known ./other; then fails "it isn't seen: $body"; else echo "ok: it is seen: $body"; fi
done

both=$(printf '%s\n' "x.bin 2 $file 0" "x.bin 6 $file 1")
asks "each file is opened once, in order, to be read alone" 0 "$both
y.bin 0 $file 0
y.bin 4 $file 1
end" "" "$(opening v.par2 1; opening w.par2 2; opening x.bin 3; opening y.bin 4)
pread 1 0 416 416
pread 2 0 416 416
pread 3 0 10 10
pread 4 0 8 8" find v.par2 x.bin w.par2 y.bin
sees "opened for writing too" "created where it is missing" "left open for other programs" "opened twice" \
    "opened again to be read" "never closed" "no look before opening" "no second look" "a second look by path" \
    "a link isn't followed"

# The length and the kind are those of the open file, and not those of whatever is at its path by then.
WRONG="another length by path" asks "a length by path that is another" 0 "$both
end" "" "$(opening v.par2 1; opening x.bin 2)
pread 1 0 416 416
pread 2 0 10 10" find v.par2 x.bin
for other in "another kind once it is open" "a length of 2^63"; do
    WRONG=$other asks "$other" 6 "" "parv: cannot open v.par2" "$(opening v.par2 1)" find v.par2 x.bin
done

mkdir folder folder/below
ln -s ../v.par2 folder/link.par2
ln -s folder/link.par2 link.par2
for path in link.par2 ./folder/below/../../v.par2 "$work/folder/link.par2"; do
    asks "the path as it is given: ${path/#"$work"/..}" 0 "$path 0 92 main $set
$path 92 128 filedesc $set
$path 220 120 ifsc $set
$path 340 76 recvslic $set
packets 4" "" "$(opening "$path" 1)
pread 1 0 416 416" packets "$path"
done
sees "a link isn't followed"

# A file that isn't regular isn't opened, and parv doesn't look at the files after it.
mkfifo fifo.par2
ln -s none.par2 broken.par2
for path in none.par2 broken.par2 folder fifo.par2; do
    given=(packets v.par2 "$path" other.par2 w.par2)
    [ "$path" = "${path%.par2}" ] && given=(find v.par2 "$path" other.bin x.bin)
    asks "the first that can't be opened: $path" 6 "" "parv: cannot open $path" "$(opening v.par2 1)
statx $path 0" "${given[@]}"
    [ -e "$path" ] || sees "a look behind the first that can't be opened"
done

: > empty.par2
: > empty.bin
asks "empty files" 0 "end" "" "$(opening empty.par2 1; opening v.par2 2; opening empty.bin 3)
pread 2 0 416 416" find empty.par2 empty.bin v.par2
sees "a length of 0 refused"

# The last of 300 files is read by its own number, both as a packet file and as a scanned file.
few=$(ulimit -n)
if [ "$few" = unlimited ] || [ "$few" -ge 620 ]; then
    names=() packets=() opened='' read='' scanned='' searched=''
    for i in $(seq 300); do
        printf none > "f$i"
        head -c 64 /dev/zero > "p$i.par2"
        names+=("f$i")
        packets+=("p$i.par2")
    done
    cp y.bin f300
    cp v.par2 p300.par2
    for i in $(seq 300); do
        opened+=$(opening "p$i.par2" "$i")$'\n'
        scanned+=$(opening "f$i" $((300 + i)))$'\n'
        size=$(stat -c %s "p$i.par2")
        read+="pread $i 0 $size $size"$'\n'
        size=$(stat -c %s "f$i")
        searched+="pread $((300 + i)) 0 $size $size"$'\n'
    done
    asks "the last of 300 packet files and of 300 others" 0 "f300 0 $file 0
f300 4 $file 1
end" "" "$opened$scanned$read${searched%$'\n'}" find "${packets[@]}" "${names[@]}"
    sees "a file's number modulo 256"
else
    echo "not run: no more than $few files may be open, and 620 are wanted"
fi

# Lengths and offsets above 2^32 and 2^44, up to the greatest, in sparse files. Not every file system allows these.
place=$work/place
mkdir place
[ -w /dev/shm ] && place=$(mktemp -d -p /dev/shm) && trap 'rm -rf "$work" "$place"' EXIT
for far in $((1 << 32)) $((1 << 44)) $(((1 << 63) - 11)); do
    if ! truncate -s $((far + 10)) "$place/far" 2> "$said/far"; then
        echo "not run: no file of $((far + 10)) bytes in $place"
        continue
    fi
    dd if=x.bin of="$place/far" bs=10 seek="$far" oflag=seek_bytes conv=notrunc status=none || fails "no far file"
    asks "a file of $((far + 10)) bytes" 0 "far $((far + 2)) $file 0
far $((far + 6)) $file 1
end" "" "$(opening v.par2 1; opening "$place/far" 2)
pread 1 0 416 416
pread 2 $far 10 10" find -B "$place" --cursor "$set:0:$far:0" v.par2 "$place/far"
    sees "a length modulo 2^32" "an offset modulo 2^32"
    [ "$far" -lt $((1 << 44)) ] || sees "a length above 2^44 refused"
    rm "$place/far"
done

# A read that fails is the last one, whatever its error is. (4 is EINTR, an interrupted call.)
for number in 5 4; do
    export ERROR=$number FAIL_READ=2
    asks "a read that fails by error $number" 6 "" "parv: read fault in x.bin" \
        "$(opening v.par2 1; opening x.bin 2; opening y.bin 3)
pread 1 0 416 416
pread 2 0 10 -1" find v.par2 x.bin y.bin
    sees "a failed read tried again"
    [ $number = 5 ] || sees "an interrupted read tried again"
done
# If a file is read in parts, the second or the third part may fail. A reader that continues by itself would forget one
# of these errors.
export ERROR=5 FAIL_READ SHORT=100
parts=$(opening v.par2 1)
for FAIL_READ in 2 3; do
    at=$((100 * FAIL_READ - 200))
    parts+=$'\n'"pread 1 $at $((416 - at)) 100"
    at=$((at + 100))
    asks "a read of a part that fails, at $at" 6 "" "parv: read fault in v.par2" "$parts
pread 1 $at $((416 - at)) -1" packets v.par2
    sees "a failed read of a part forgotten" "a failed read tried again"
done
unset ERROR FAIL_READ
asks "a file that is read in parts" 0 "$(lines=(0\ 92\ main 92\ 128\ filedesc 220\ 120\ ifsc 340\ 76\ recvslic)
printf "v.par2 %s $set\n" "${lines[@]}"; echo packets 4)" "" "$(opening v.par2 1)
pread 1 0 416 100
pread 1 100 316 100
pread 1 200 216 100
pread 1 300 116 100
pread 1 400 16 16" packets v.par2
unset SHORT

# A file that ends early: its missing bytes are replaced neither by zeros nor by bytes that were read before.
export CUT_READ=1
asks "a packet file that ends early" 6 "" "parv: read fault in v.par2" "$(opening v.par2 1)
pread 1 0 416 0" packets v.par2
sees "zeros past an early end" "stale bytes past an early end"
CUT_READ=2
asks "a scanned file that ends early" 6 "" "parv: read fault in x.bin" "$(opening v.par2 1; opening x.bin 2)
pread 1 0 416 416
pread 2 0 10 0" find v.par2 x.bin
sees "zeros past an early end" "stale bytes past an early end"
asks "a file that ends early before its MD5" 6 "" "parv: read fault in y.bin" "$(opening v.par2 1; opening y.bin 2)
pread 1 0 416 416
pread 2 0 8 0" verify v.par2 y.bin
sees "zeros past an early end" "stale bytes past an early end"
unset CUT_READ

# An interrupted read has failed; it doesn't mean that the file has ended, and later reads are made. No run of the
# program shows either. So a test runs here that expects an early end and then reads on, and it has to fail.
tests=$top/crates/search_tests/out/search_tests_tests
if [ -x "$tests" ]; then
    test=$("$tests" --list | sed -n 's/: test$//p' | grep a_search_goes_on_where_a_shortened_file_ended)
    reads_on() {
        timeout "$most" env ERROR=4 FAIL_READ=1 CALLS=calls LD_PRELOAD="$work/wrong.so $work/disturb.so" \
            "$tests" "$test" > text 2>&1 < /dev/null
        status=$?
        rm -f "$(awk '$1 == "open" { print $2; exit }' calls)"
        [ $status -ne 0 ] && [ "$(grep '^pread ' calls)" = "pread 2 0 10 -1
pread 2 0 10 5
pread 2 5 5 0" ]
    }
    name="an interrupted read of a test, and those behind it"
    # (The shell reports each test that was ended by a signal.)
    if reads_on 2> "$said/ended"; then
        echo "ok: $name"
    else
        fails "$name: status $status, $(head -c 300 text; cat calls)"
    fi
    for fault in "an interrupted read taken for an early end" "all reads refused after one"; do
        if WRONG=$fault reads_on 2> "$said/ended"; then
            fails "$name: it isn't seen: $fault"
        else
            echo "ok: $name: it is seen: $fault"
        fi
    done
elif [ -n "${GATE:-}" ]; then
    fails "there is no $tests"
else
    echo "not run: there is no $tests, which the gate leaves"
fi
exit $failed
