# Completion of parv and the commands around it for bash. If this file is installed under the name of each command below
# share/bash-completion/completions, the package bash-completion loads it. Without that package, type: .
# completions/parv.bash

# Prints the IDs of the sets in the packet files that were typed or, for parv-repair, that are in a folder that was
# typed.
_parv_sets() {
    local typed program=${COMP_WORDS[0]} files=()
    [[ ${program##*/} != parv-* ]] || program=${PARV:-parv}
    for typed in "${COMP_WORDS[@]:1}"; do
        typed=${typed//[\\\'\"]/}
        case $typed in
        *.[Pp][Aa][Rr]2) [ ! -f "$typed" ] || files+=("$typed") ;;
        *) [[ ${COMP_WORDS[0]} != *parv-repair || ! -d $typed ]] || files+=("$typed"/*.[Pp][Aa][Rr]2) ;;
        esac
    done
    [ ${#files[@]} -eq 0 ] || "$program" packets -- "${files[@]}" 2> /dev/null \
        | sed -n 's/^.* main \([0-9a-f]\{32\}\)$/\1/p' | sort -u
}

_parv() {
    local word=${COMP_WORDS[COMP_CWORD]} option=${COMP_WORDS[COMP_CWORD - 1]}
    local options='--set --base -B' commands='packets set find verify' ended='' i
    [[ ${COMP_WORDS[0]} != *parv-progress ]] || commands='find verify'
    COMPREPLY=()
    if [ "$COMP_CWORD" -eq 1 ]; then
        mapfile -t COMPREPLY < <(compgen -W "$commands" -- "$word")
        return
    fi
    [[ " $commands " == *" ${COMP_WORDS[1]} "* ]] || return
    case ${COMP_WORDS[1]} in
    packets | set) ;;
    find) options+=' --limit --cursor --tails' ;;
    verify) options+=' -q --tails' ;;
    *) return ;;
    esac
    # Options that were typed aren't offered again, except -q, and none is offered after `--`.
    for ((i = 2; i < COMP_CWORD; i++)); do
        case ${COMP_WORDS[i]} in
        --) ended=1 && break ;;
        -B* | --base) options=${options/--base -B/} ;;
        --set | --limit | --cursor | --tails) options=${options/${COMP_WORDS[i]}/} ;;
        esac
    done
    if [ -z "$ended" ]; then
        # bash splits `--base=DIR` into three words.
        [ "$option" != = ] || option=${COMP_WORDS[COMP_CWORD - 2]}
        case $option in
        -B | --base)
            [ "$word" != = ] || compopt -o nospace
            compopt -o dirnames
            return
            ;;
        --set)
            mapfile -t COMPREPLY < <(compgen -W "$(_parv_sets)" -- "$word")
            return
            ;;
        --limit | --cursor) return ;;
        esac
        case $word in
        -*)
            mapfile -t COMPREPLY < <(compgen -W "$options" -- "$word")
            return
            ;;
        esac
    fi
    # Files as bash itself completes them. If the command reads only packet files, these come before all others.
    compopt -o filenames -o default
    case ${COMP_WORDS[1]} in
    packets | set)
        mapfile -t COMPREPLY < <(
            compgen -f -X '!*.[Pp][Aa][Rr]2' -- "$word"
            compgen -d -- "$word"
        )
        ;;
    esac
}

complete -F _parv parv parv-progress

# _parv_command OPTIONS KIND: completes a command that has these options, each at most once, and then words of this
# kind.
_parv_command() {
    local word=${COMP_WORDS[COMP_CWORD]} option=${COMP_WORDS[COMP_CWORD - 1]} options="$1 --help -h" given ended=''
    [ "$option" != = ] || option=${COMP_WORDS[COMP_CWORD - 2]}
    COMPREPLY=()
    for given in "${COMP_WORDS[@]:1:COMP_CWORD - 1}"; do
        [ "$given" != -- ] || ended=1
        case $given in
        -[jq]) options=${options/$given/} ;;
        -B* | --base) options=${options/--base -B/} ;;
        --*) options=${options/$given/} ;;
        esac
    done
    case $ended$option in
    --set) mapfile -t COMPREPLY < <(compgen -W "$(_parv_sets)" -- "$word") ;;
    --width | -j) ;;
    -B | --base)
        [ "$word" != = ] || compopt -o nospace
        compopt -o dirnames
        ;;
    --html | --svg | --state) compopt -o default -o filenames ;;
    *)
        if [ -z "$ended" ] && [[ $word == -* ]]; then
            mapfile -t COMPREPLY < <(compgen -W "$options" -- "$word")
        else
            compopt -o "$2" -o filenames
        fi
        ;;
    esac
}

_parv_repair() {
    _parv_command '--dry-run --remove-backups --set' dirnames
}

_parv_rescue() {
    _parv_command '--tails --set' default
}

_parv_tree() {
    _parv_command '--tails --json --state -j -q' dirnames
}

_parv_map() {
    _parv_command '--tails --set --base -B --width --html --svg' default
}

_parv_watch() {
    _parv_command --tails dirnames
}

_parv_parts() {
    _parv_command --tails default
}

complete -F _parv_map parv-map
complete -F _parv_watch parv-watch
complete -F _parv_parts parv-parts
complete -F _parv_repair parv-repair
complete -F _parv_rescue parv-rescue
complete -F _parv_tree parv-tree
