# Read by each check that runs something. It finds the built program, makes a folder to work in, and compares runs with
# what they must print. PARV names another program than the built one.
#
# Each comparison prints a line that begins with 'ok: ' or 'FAILED: '. A check ends by `exit $failed`.
set -uo pipefail
tools=$(cd "$(dirname "${BASH_SOURCE[0]}")/../.." && pwd)
top=$(dirname "$tools")
parv=${PARV:-$top/crates/parv/out/parv}
"$top/commands/make_bin.sh" || exit 1
work=$(mktemp -d)
trap 'rm -rf "$work"' EXIT
said=$work/.said
mkdir "$said"
failed=0
umask 022       # checks compare modes, and let another user read what they make
# The seconds after which a run is taken for one that hangs, far more than any run takes on a busy machine.
export most=${most:-600}
export PYTHONDONTWRITEBYTECODE=1 XDG_STATE_HOME=$said/state

fails() {
    echo "FAILED: $*"
    failed=1
}

# comes COMMAND..: repeats this command until it succeeds, for at most $most seconds.
comes() {
    local left=$((10 * most))
    until "$@" 2> "$said/comes"; do
        [ $((left -= 1)) -gt 0 ] || return 1
        sleep 0.1
    done
}

# other_user: sets `user` to the words that call a command as a user who isn't root, who can reach $work and has a folder
# for temporary files there.
other_user() {
    user=()
    [ "$(id -u)" -ne 0 ] || user=(setpriv --reuid 65534 --regid 65534 --clear-groups)
    chmod 711 "$work"
    mkdir "$work/.tmp"
    chmod 1777 "$work/.tmp"
    export TMPDIR=$work/.tmp
}

# gives NAME STATUS FILE LINE COMMAND..: wants this exit status, the content of FILE on standard output, and LINE on
# standard error.
gives() {
    local name=$1 status=$2 text=$3 line=$4
    shift 4
    timeout "$most" "$@" > "$said/text" 2> "$said/line" < /dev/null
    local got=$?
    if [ $got -eq "$status" ] && cmp -s "$said/text" "$text" && [ "$(cat "$said/line")" = "$line" ]; then
        echo "ok: $name"
    else
        fails "$name: status $got, $(cmp "$said/text" "$text" 2>&1), $(head -c 300 "$said/text") $(head -c 300 "$said/line")"
    fi
}

# wants NAME STATUS TEXT LINE COMMAND..: the same, with the text of standard output itself.
wants() {
    local name=$1 status=$2 text=$3 line=$4
    shift 4
    { [ -z "$text" ] || printf '%s\n' "$text"; } > "$said/wanted"
    gives "$name" "$status" "$said/wanted" "$line" "$@"
}

if [ ! -x "$parv" ]; then
    fails "there is no built program at $parv"
    exit 1
fi
