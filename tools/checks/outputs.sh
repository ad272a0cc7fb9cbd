#!/usr/bin/env bash
# If this fails, parv may print something that isn't part of its report, such as a second verdict.
#
# The contract of `perform_words` covers only the sink that it is lent. No contract says that `perform` makes no other
# handle of standard output, or that no function opens /dev/stdout as a file. So this check searches the sources of the
# program and its libraries for both. It also compares the writes of runs with the text of the models: `find` writes
# line by line, and the other commands write as many whole lines as make up a block. If the arguments are wrong, nothing
# is written to standard output; a run that is cut short writes the first of these writes. Then injected bugs must be
# noticed. (disk.sh checks that the program writes only by `write`.)
. "$(dirname "$0")/with/disturbing.sh"
gcc -shared -fPIC -O1 -o disturb.so "$tools/disturb/disturb.c" -ldl || exit 1
gcc -shared -fPIC -O1 -o outputs.so "$tools/disturb/outputs.c" -ldl || exit 1

# The crates of the program, without the crates of tests.
crates=$(sed -n 's/:.*//p' "$top/crates.txt" | grep -v '_tests$' | grep -vx parfixtures)

# Expressions that give a handle of an output or a file, or write to one. `handles` counts them in each source, without
# comments.
handle='\w*(\.|::)?[Ss]td(out|err)\b|\be?print(ln)?!|\bdbg!|[Rr]aw_?[Ff]d|\blibc\b|/dev/|/proc/'
handle+='|\bio::[{A-Za-z, ]*Write\b|\bwrite(_all|_at|_all_at)?\(|\boptions\(|\bOpenOptions|\bcreate(_new)?\('
handle+='|\bfs::[{A-Za-z_, ]+|&mut out\b'
handles() {
    local source
    for crate in $crates; do
        find "$1/crates/$crate/src" -name '*.rt' | while read -r source; do
            sed 's|//.*||' "$source" | grep -oE "$handle" | sed "s|^|${source#"$1/crates/"} |"
        done
    done | LC_ALL=C sort | uniq -c | sed 's/^ *//'
}

wanted_handles='1 parshelf/src/shelves/disk.rt fs::FileExt
1 parshelf/src/shelves/disk.rt fs::metadata
1 parshelf/src/shelves/disk.rt fs::{File, Files
1 parshelf/src/sinks/writer.rt io::Write
1 parshelf/src/sinks/writer.rt write(
1 parv/src/main.rt io::Write
2 parv/src/main.rt rt.stderr
2 parv/src/main.rt write_all(
1 parv/src/program.rt &mut out
1 parv/src/program.rt fs::{File, Files
1 parv/src/program.rt rt.stdout'
made=$(grep -c 'let mut out = WriteSink::new(rt.stdout());' "$top/crates/parv/src/program.rt")
if [ "$(handles "$top")" = "$wanted_handles" ] && [ "$made" = 1 ]; then
    echo "ok: the sources make one handle of standard output, and lend it once"
else
    fails "the sources have other handles: $(diff <(handles "$top") - <<< "$wanted_handles" | tr '\n' ';')"
fi

# plants FILE BEFORE LINE..: puts each line before the line BEFORE in a copy of this source, and wants that to be
# noticed.
plants() {
    local source=$1 before=$2 line
    for line in "${@:3}"; do
        rm -rf other
        mkdir -p other/crates
        for crate in $crates; do
            mkdir "other/crates/$crate"
            cp -r "$top/crates/$crate/src" "other/crates/$crate/src"
        done
        LINE=$line awk -v before="$before" 'index($0, before) == 1 { print ENVIRON["LINE"] } { print }' \
            "$top/crates/$source" > "other/crates/$source"
        if cmp -s "$top/crates/$source" "other/crates/$source" || [ "$(handles other)" = "$wanted_handles" ]; then
            fails "it isn't seen in $source: $line"
        else
            echo "ok: it is seen in $source: $line"
        fi
    done
}
plants parv/src/program.rt '    let performed = ' 'let _ = rt.stdout().write_all(b"result complete");' \
    'println!(rt; "result complete");' 'let mut more = HostRuntime::stdout(rt);' \
    'let mut handle = rt.stdout(); let mut out = WriteSink::new(handle);' \
    'let _ = Sink::put(&mut out, b"result complete");'
plants parv/src/program.rt '    let alloc = ' 'let more = File::options().write(true).open(rt, NAME);' \
    'let _ = fs::write(rt, NAME, b"result complete");' 'let more = File::open(rt, "/dev/stdout");'
plants parshelf/src/shelves/disk.rt '    let file = File::open' 'let _ = fs::write(rt, path, b"");' \
    'let more = File::create(rt, path);' 'let _ = file.write_at(b"", 0);'

# sizes_of COMMAND: prints the sizes of the writes of this command for the text on standard input.
sizes_of() {
    LC_ALL=C awk -v least="$([ "$1" = find ] || echo 65536)" \
        '{ size += length($0) + 1 } size >= least + 0 { print 1, size, size; size = 0 } END { if (size) print 1, size, size }'
}

# runs WORDS..: runs the program. It sets `status`, and `met` to 1 if a disturbance met the run, and writes the files
# `text`, `line` and `outputs`.
runs() {
    rm -f outputs report
    timeout "$most" env OUTPUTS=outputs REPORT=report LD_PRELOAD="$work/outputs.so $work/disturb.so" \
        "$parv" "$@" > text 2> line < /dev/null
    status=$?
    read -r met _ < report
}

# Whether each line of standard error came by one write, and nothing was written elsewhere.
is_told() {
    [ "$(grep -c '^2 ' outputs)" = "$(wc -l < line)" ] && ! grep -qv '^[12] ' outputs
}

# Whether the run ended with this status and line, and wrote the text in `wanted` by the writes in `sizes`.
is_wanted() {
    [ "$status" = "$status_wanted" ] && [ "$(< line)" = "$line_wanted" ] && is_told \
        && cmp -s text wanted && cmp -s <(grep '^1 ' outputs) sizes
}

# Whether the run ended as the disturbance demands, and wrote the first of these writes.
is_cut() {
    local count end="6 parv: read fault in *"
    case $1 in
    REFUSE) end="8 parv: out of memory" ;;
    FAIL_OPEN) end="6 parv: cannot open *" ;;
    esac
    count=$(grep -c '^1 ' outputs)
    # shellcheck disable=SC2053 # (it is a pattern)
    [[ "$status $(< line)" == $end ]] && [ "$(wc -l < line)" = 1 ] && is_told \
        && cmp -s <(grep '^1 ' outputs) <(head -n "$count" sizes) \
        && cmp -s text <(head -c "$(awk '$1 == 1 { sum += $3 } END { print sum + 0 }' outputs)" wanted)
}

# Prints how the run differed from the expected one.
came() {
    echo "$1: status $status, $(cmp text wanted 2>&1), $(diff <(grep '^1 ' outputs) sizes | head -n 5 | tr '\n' ';')" \
        "$(head -c 300 line)"
}

# writes NAME STATUS LINE WORDS..: wants the run to end like this, and its writes to be those of the text in `wanted`.
writes() {
    name=$1 status_wanted=$2 line_wanted=$3
    words=("${@:4}")
    sizes_of "${4-}" < wanted > sizes
    runs "${words[@]}"
    if is_wanted; then echo "ok: $name: $(wc -l < sizes) writes"; else fails "$(came "$name")"; fi
}

# sees FAULT..: wants the same run to differ with each of these injected bugs.
sees() {
    local fault
    for fault; do
        WRONG=$fault runs "${words[@]}" 3> elsewhere
        if is_wanted || [ "$status" -ge 124 ]; then fails "$name: it isn't seen: $fault"; else echo "ok: $name: it is seen: $fault"; fi
    done
}

# cut_short WHAT..: repeats the same run, and each time disturbs the next place where this disturbance is possible.
cut_short() {
    local what n cut
    for what; do
        n=1 cut=0
        while
            export "$what=$n"
            runs "${words[@]}"
            unset "$what"
            [ "$met" = 1 ]
        do
            if is_cut "$what"; then
                cut=$((cut + 1))
            elif [ "$what" != REFUSE ] || ! is_wanted; then
                # (If capacity that is requested ahead is refused, the run may go on and request it bit by bit.)
                fails "$(came "$name: $what=$n")"
                return
            fi
            n=$((n + 1))
        done
        if [ $cut -gt 0 ]; then
            echo "ok: $name: cut short at $cut places by $what"
        else
            fails "$name: nothing is cut short by $what"
        fi
    done
}

set=617cdc72ba53d94fe713fea2ae18f776
model() {
    "$tools/models/$1.py" "${@:2}" > wanted
}

# Runs with valid arguments.
model list_packets v.par2 w.par2
writes "the packets of two files" 0 "" packets v.par2 w.par2
sees first last twice half elsewhere silent
cut_short REFUSE FAIL_OPEN FAIL_READ CUT_READ
model describe_set v.par2
writes "a set" 0 "" set v.par2
sees first last twice half elsewhere silent
cut_short REFUSE FAIL_READ
model find_slices v.par2 x.bin y.bin
writes "a search" 0 "" find v.par2 x.bin y.bin
sees first last twice half elsewhere silent
cut_short REFUSE FAIL_OPEN FAIL_READ CUT_READ
head -n 1 wanted > first
{ cat first; echo "cursor 2:$set:$("$tools/models/cursor_texts.py" x.bin y.bin):0:2:1"; } > wanted
writes "a search up to its limit" 0 "" find --limit 1 v.par2 x.bin y.bin
cut_short REFUSE FAIL_READ
model tell_states v.par2 x.bin
writes "a verdict" $? "" verify v.par2 x.bin
sees first last twice half elsewhere silent
cut_short REFUSE FAIL_READ CUT_READ
printf 'abcdefgh' > g.bin
model tell_states v.par2 g.bin
writes "a verdict of a whole file" 0 "" verify v.par2 g.bin
tail -n 2 wanted > last
mv last wanted
writes "the end of a verdict" 0 "" verify -q v.par2 g.bin
: > wanted
writes "a status alone" 0 "" verify -qq v.par2 g.bin
sees first last

# Texts of several blocks.
"$tools/make/many_packets.py" 4000 long.par2 || exit 1
model list_packets long.par2
writes "many packets" 0 "" packets long.par2
[ "$(wc -l < sizes)" -ge 3 ] || fails "the text isn't long"
sees first last twice half
cut_short FAIL_READ
"$tools/make/big_set.py" big 3000 2 || exit 1
model describe_set big/*.par2
writes "a set of many files" 0 "" set big/*.par2
[ "$(wc -l < sizes)" -ge 3 ] || fails "the text isn't long"

# Runs with wrong arguments, and runs without a report: nothing is written to standard output.
: > wanted
usage="parv: usage: parv packets|set|find|verify [options] FILES"
writes "no words" 3 "$usage"
sees first last
writes "a word that is no command" 3 "$usage" look v.par2
writes "a limit of 0" 3 "parv: bad value" find --limit 0 v.par2 x.bin
sees first last
writes "no packet file" 3 "parv: no packet file" packets x.bin
writes "a packet file that is not there" 6 "parv: cannot open none.par2" packets v.par2 none.par2
sees first last
writes "a scanned file that is not there" 6 "parv: cannot open none.bin" find v.par2 x.bin none.bin
sees first last
head -c 92 v.par2 > main.par2
writes "no set" 4 "parv: no usable set: no description of e345eacbe656c0e6fd20ed63cb7b062c" verify main.par2 x.bin
writes "a cursor of another set" 3 "parv: cursor of another set" \
    find --cursor 00000000000000000000000000000000:0:0:0 v.par2 x.bin
writes "a cursor of other files" 3 "parv: cursor of other files" \
    find --cursor "2:$set:00000000000000000000000000000000:0:0:0" v.par2 x.bin
"$tools/make/tail_sets.py" tails || exit 1
for command in find verify; do
    writes "too many tails: $command" 4 "parv: no usable set: too many tails" $command --tails tails/257.par2 x.bin
    sees first last
done
exit $failed
