# Read after wants.sh: the commands that people call, each with its first arguments. Checks call these variables and
# name no program themselves, so the same checks also apply to a command that replaces another one. EXAMPLES and
# COMMANDS can name the folders of other scripts and commands.
examples=${EXAMPLES:-$top/examples}
commands=${COMMANDS:-$top/commands/bin}
repair=("$commands/parv-repair")
repair_dry=("${repair[@]}" --dry-run)
repair_set=("${repair[@]}" --set)
repair_set_dry=("${repair[@]}" --dry-run --set)
rescue_tails=("$commands/parv-rescue" --tails)
draw_tails=("$commands/parv-map" --tails)
tree=("$commands/parv-tree")
tree_quiet=("${tree[@]}" -q)
tree_beside=("${tree[@]}" -j)
watch=("$commands/parv-watch")
search=("$commands/parv-parts")
# The beginning of their messages.
repair_says="parv-repair:"
tree_says="parv-tree:"
search_says="parv-parts:"
export PARV=$parv LC_ALL=C

# limited KIB COMMAND..: runs a command that can't make a file longer than KIB KiB, as on a disk that is nearly full.
limited() {
    (
        trap '' XFSZ
        ulimit -f "$1"
        exec "${@:2}"
    )
}

# mounting COMMAND..: runs a command that may mount file systems; no other program sees these mounts.
mounting() {
    local user=(--user --map-root-user)
    [ "$(id -u)" -ne 0 ] || user=()
    unshare "${user[@]}" --mount -- "$@"
}

# can_mount NAME: whether mounting is allowed. If it isn't, it prints that NAME wasn't run.
can_mount() {
    mkdir -p "$said/mounted"
    mounting mount -t tmpfs -o size=64k tmpfs "$said/mounted" 2> "$said/mount" && return
    echo "not run: $1: mounting isn't allowed here"
    return 1
}
