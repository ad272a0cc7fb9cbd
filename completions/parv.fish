# Completion of parv and the commands around it for fish, which loads this file from share/fish/vendor_completions.d,
# where it has the name of each command.

# Whether the command that was typed is one of these.
function __parv_is
    set -l words (commandline -opc)
    test (count $words) -gt 1; and contains -- $words[2] $argv
end

# Whether no command was typed yet.
function __parv_begins
    test (count (commandline -opc)) -eq 1
end

# Whether the command is one of these and a file is being typed: no option, and no value of an option.
function __parv_file_of
    __parv_is $argv; or return 1
    set -l words (commandline -opc)
    contains -- -- $words; and return 0
    not contains -- $words[-1] -B --base --set --limit --cursor
    and not string match -q -- '-*' (commandline -ct)
end

# Whether the value of one of these options is being typed.
function __parv_behind
    set -l words (commandline -opc)
    test (count $words) -gt 1; and contains -- $words[-1] $argv
end

# Prints the IDs of the sets in the packet files that were typed or, for parv-repair, that are in a folder that was
# typed.
function __parv_sets
    set -l files
    set -l program parv
    test -n "$PARV"; and set program $PARV
    for word in (commandline -o)
        if string match -qi '*.par2' -- $word; and test -f $word
            set -a files $word
        else if test (commandline -o)[1] = parv-repair; and test -d $word
            set -a files (find $word -maxdepth 1 -iname '*.par2' -type f)
        end
    end
    test (count $files) -gt 0; or return 1
    $program packets -- $files 2> /dev/null \
        | string replace -rf '^.* main ([0-9a-f]{32})$' '$1' | sort -u
end

complete -c parv -n __parv_begins -a packets -d 'list every packet of the packet files'
complete -c parv -n __parv_begins -a set -d 'show the recovery set that the packets describe'
complete -c parv -n '__parv_file_of packets set' -k -a '(__fish_complete_suffix .par2)'

for name in parv parv-progress
    set -l all 'find verify'
    test $name = parv-progress; or set all 'packets set find verify'
    complete -c $name -f
    complete -c $name -n __parv_begins -a find -d 'list every slice of the set in the scanned files'
    complete -c $name -n __parv_begins -a verify -d 'tell the state of each file of the set'
    complete -c $name -n "__parv_is $all; and __parv_behind --set" -a '(__parv_sets)'
    complete -c $name -n "__parv_is $all; and __parv_behind -B --base" -a '(__fish_complete_directories)'
    complete -c $name -n "__parv_is $all; and not __fish_contains_opt set" -l set -x -a '(__parv_sets)' \
        -d 'take the set of this ID in place of the first'
    complete -c $name -n "__parv_is $all; and not __fish_contains_opt -s B base" -s B -l base -x \
        -a '(__fish_complete_directories)' -d 'take a folder off the names of scanned files'
    complete -c $name -n '__parv_is find; and not __fish_contains_opt limit' -l limit -x \
        -d 'end after so many sightings'
    complete -c $name -n '__parv_is find; and not __fish_contains_opt cursor' -l cursor -x \
        -d 'begin at a cursor that an earlier run has written'
    complete -c $name -n '__parv_is find verify; and not __fish_contains_opt tails' -l tails \
        -d 'see short last slices also where other bytes follow'
    complete -c $name -n '__parv_is verify' -s q -d 'leave out all but the last two lines; twice, all'
    complete -c $name -n '__parv_file_of find verify' -F
end

# Whether a name is being typed: no option, and no value of an option.
function __parv_name
    set -l words (commandline -opc)
    contains -- -- $words; and return 0
    not contains -- $words[-1] --set --state -j -B --base --width --html --svg
    and not string match -q -- '-*' (commandline -ct)
end

for name in parv-repair parv-rescue parv-map parv-watch parv-parts
    complete -c $name -f
    complete -c $name -s h -l help -d 'print what it does'
end
for name in parv-map parv-watch parv-parts
    complete -c $name -n 'not __fish_contains_opt tails' -l tails -d 'find short slices before other bytes too'
end
complete -c parv-map -n '__parv_behind -B --base' -a '(__fish_complete_directories)'
complete -c parv-map -n 'not __fish_contains_opt -s B base' -s B -l base -x -a '(__fish_complete_directories)' \
    -d 'take a folder off the names of searched files'
complete -c parv-map -n 'not __fish_contains_opt width' -l width -x -d 'write lines of this number of characters'
complete -c parv-map -n 'not __fish_contains_opt html' -l html -rF -d 'write a page too'
complete -c parv-map -n 'not __fish_contains_opt svg' -l svg -rF -d 'write a drawing too'
complete -c parv-map -n __parv_name -F
complete -c parv-watch -n __parv_name -a '(__fish_complete_directories)'
complete -c parv-parts -n __parv_name -F

for name in parv-repair parv-rescue parv-map
    complete -c $name -n '__parv_behind --set' -a '(__parv_sets)'
    complete -c $name -n 'not __fish_contains_opt set' -l set -x -a '(__parv_sets)' -d 'say which set, if there are several'
end
complete -c parv-repair -n 'not __fish_contains_opt dry-run' -l dry-run -d 'tell what would be done, and write nothing'
complete -c parv-repair -n 'not __fish_contains_opt remove-backups' -l remove-backups \
    -d 'remove the damaged files that this run has kept'
complete -c parv-repair -n __parv_name -a '(__fish_complete_directories)'
complete -c parv-rescue -n 'not __fish_contains_opt tails' -l tails \
    -d 'then look at each byte for the short slices that are missing'
complete -c parv-rescue -n __parv_name -F

complete -c parv-tree -f
complete -c parv-tree -s h -l help -d 'print what it does'
complete -c parv-tree -n 'not __fish_contains_opt -s j' -s j -x -d 'check so many sets side by side'
complete -c parv-tree -n 'not __fish_contains_opt -s q' -s q -d 'leave out the lines of sets that are complete'
complete -c parv-tree -n 'not __fish_contains_opt tails' -l tails -d 'find short slices before other bytes too'
complete -c parv-tree -n 'not __fish_contains_opt json' -l json -d 'print a JSON object for each set'
complete -c parv-tree -n 'not __fish_contains_opt state' -l state -r -F -d 'keep the state in a file, and report what was lost since'
complete -c parv-tree -n 'test (commandline -opc)[-1] = --state' -F
complete -c parv-tree -n __parv_name -a '(__fish_complete_directories)'
