# Read after wants.sh: makes folders to be repaired, and compares them afterwards.

# listed FOLDER: prints the paths, kinds and contents of everything below the folder, a line each.
listed() {
    (cd "$1" && find . -type f -exec md5sum -- {} + | sort
        find . ! -type f -printf '%y %p %l\n' | sort)
}

# furnish SIZE RECOVERY NAME CONTENT..: makes a folder `room` with the set of these files, and a folder `whole` with the
# files.
furnish() {
    local size=$1 recovery=$2
    shift 2
    rm -rf whole room
    mkdir whole room
    while [ $# -gt 0 ]; do
        mkdir -p "whole/$(dirname -- "$1")"
        printf '%s' "$2" > "whole/$1"
        shift 2
    done
    cp -r whole/. room
    "$tools/make/one_set.py" room/set.par2 "$size" "$recovery" whole || exit 1
    : > given
}

# whole_now NAME MORE..: wants `room` to have the files of `whole`, the packet files and the files MORE (a name and a
# content each), and no others.
whole_now() {
    local name=$1
    shift
    rm -rf wanted_room
    cp -r whole wanted_room
    cp room/*.par2 wanted_room
    while [ $# -gt 0 ]; do
        printf '%s' "$2" > "wanted_room/$1"
        shift 2
    done
    if cmp -s <(listed room) <(listed wanted_room); then
        echo "ok: each file is whole, and nothing is lost: $name"
    else
        fails "$name: $(diff <(listed room) <(listed wanted_room) | tr '\n' ';')"
    fi
}

# as_before NAME: wants `room` to be as it was when `before` was listed.
as_before() {
    if cmp -s before <(listed room); then
        echo "ok: all is as it was: $1"
    else
        fails "it isn't as it was: $1: $(diff before <(listed room) | head -5 | tr '\n' ';')"
    fi
}
