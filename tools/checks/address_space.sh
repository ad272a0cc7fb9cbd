#!/usr/bin/env bash
# If this fails, parv may crash, or print a wrong answer, on a system that has too little memory for it.
#
# Each command runs under limits on its address space that rise in steps of 16 KiB. The lowest is the least limit under
# which parv without arguments still ends with its usage line. Under each limit, a command either exits with 8, says
# that it is out of memory and has written a beginning of its text, or does what it does without a limit. Then large
# inputs are read under a small limit.
. "$(dirname "$0")/with/wants.sh"
cd "$work" || exit 1
cp "$top/crates/parv/data/v.par2" v.par2
printf 'XXabcdefgh' > x.bin
"$tools/make/many_packets.py" 400 many.par2
"$tools/make/tail_sets.py" tails || exit 1

# limited KIB WORDS..: runs parv with these words under a limit of KIB KiB. It sets `status`, `text` and `line`.
limited() {
    local limit=$1
    shift
    (ulimit -v "$limit" && exec "$parv" "$@") > "$work/text" 2> "$work/line" < /dev/null
    status=$?
    IFS= read -rd '' text < "$work/text"
    IFS= read -rd '' line < "$work/line"
}

least=1000
until limited $least; [ $status -eq 3 ]; do
    least=$((least + 16))
    [ $least -lt 100000 ] || { fails "the program ends with 3 under no limit"; exit 1; }
done

# steps WORDS..: runs parv with these words under each limit, until a hundred limits in a row don't change the run.
steps() {
    local limit refused=0 same=0 whole whole_text whole_line
    limited unlimited "$@"
    whole=$status whole_text=$text whole_line=$line
    for ((limit = least; same < 100 && limit < least + 100000; limit += 16)); do
        limited $limit "$@"
        if [ "$status $text" = "$whole $whole_text" ] && [ "$line" = "$whole_line" ]; then
            same=$((same + 1))
        elif [ "$status $line" = $'8 parv: out of memory\n' ] && [[ $whole_text == "$text"* ]]; then
            same=0
            refused=$((refused + 1))
        else
            fails "$limit KiB: status $status, ${line:0:200}: parv $*"
            return
        fi
    done
    if [ $refused -gt 0 ] && [ $same -eq 100 ] && [ "$whole" -le 1 ]; then
        echo "ok: $refused limits from $least KiB on refuse memory, and then none: parv $*"
    else
        fails "$refused limits refused memory, the undisturbed run ended with $whole: parv $*"
    fi
}

steps packets many.par2
steps set many.par2 v.par2
steps find v.par2 x.bin
steps find --limit 1 --cursor 617cdc72ba53d94fe713fea2ae18f776:0:2:1 v.par2 x.bin
steps find --limit 1 --cursor 2:617cdc72ba53d94fe713fea2ae18f776:53e12607a1d11cab6b927147969fc38c:0:2:1 v.par2 x.bin
steps verify v.par2 x.bin
steps verify -q v.par2 x.bin
steps verify --tails tails/two.par2 tails/turned
steps find --tails tails/256.par2 tails/abcd

# In the zeros, the survey replaces its index by a smaller one. If there is no memory for it, the run is as without a
# limit.
mkdir repeats
head -c 4 /dev/zero > repeats/zeros
printf 'abcd' > repeats/last
"$tools/make/one_set.py" repeats.par2 4 0 repeats || exit 1
{ head -c 9000 /dev/zero; printf 'abcd'; } > long
steps verify repeats.par2 long

# parv doesn't take memory for recovery data, or for the length of a file: it reads a packet of 64 MiB, a file of 1 GiB
# (also after packets), and 64 MiB to scan, with 4 MiB more than the least limit. It holds the bodies of packets inside
# one another only once, takes no more memory for 300 packet files than for one, and holds one window in a search.
few=$((least + 4096))
PYTHONPATH=$tools python3 "$tools/checks/address_space_sets.py"
in_few=(sh -c 'ulimit -v "$0" && exec "$@"' "$few" "$parv")
wants "a recovery slice of 64 MiB in $few KiB" 0 "large.par2 0 67108932 recvslic 00000000000000000000000000000000
packets 1" "" "${in_few[@]}" packets large.par2
wants "a file of 1 GiB in $few KiB" 0 "packets 0" "" "${in_few[@]}" packets sparse.par2
cp v.par2 behind.par2
truncate -s 1G behind.par2
"$tools/models/describe_set.py" v.par2 | sed 's/v[.]par2/behind.par2/' > wanted
gives "a set before 1 GiB in $few KiB" 0 wanted "" "${in_few[@]}" set behind.par2
many=()
for _ in $(seq 300); do many+=(v.par2); done
wants "three hundred packet files in $few KiB" 1 "need 0 have 0
result possible" "" "${in_few[@]}" verify -q "${many[@]}" x.bin
for words in find "find --tails"; do
    # shellcheck disable=SC2086 # (these are words)
    wants "a window of 64 MiB in $((few + 65536)) KiB: $words" 0 end "" \
        sh -c 'ulimit -v "$0" && exec "$@"' $((few + 65536)) "$parv" $words window.par2 x.bin
done
{ "$tools/models/describe_set.py" zeros.par2 | grep '^set'; printf '%s\n' "complete zeros.bin" "need 0 have 0" \
    "result complete"; } > wanted
gives "the verdict on 64 MiB in $few KiB" 0 wanted "" "${in_few[@]}" verify zeros.par2 zeros.bin
wants "no slice in 64 MiB in $few KiB" 0 end "" "${in_few[@]}" find zeros.par2 zeros.bin
"$tools/models/list_packets.py" nested.par2 > wanted
gives "packets in one another in $few KiB" 0 wanted "" "${in_few[@]}" packets nested.par2
"$tools/models/describe_set.py" nested.par2 > wanted
gives "a set of packets in one another in $few KiB" 0 wanted "" "${in_few[@]}" set nested.par2
exit $failed
