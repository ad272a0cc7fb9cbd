"""For completions.sh, which protects you from wrong offers when you press TAB: types each line of standard input into a
shell, on a terminal of its own.

usage: completions_typed.py SHELL COMPLETIONS

A line has three fields, separated by a bar: the text to type; a key (TAB, or ALL, which inserts all offers); and the
line that must be there then. For ALL, the inserted words are compared in any order. After an option, the `=` before its
value may be inserted too."""
import os
import pty
import select
import sys

shell, completions = sys.argv[1:]
COMMANDS = {
    "bash": ["bash", "--noprofile", "--norc", "-i"],
    "zsh": ["zsh", "-f", "-i"],
}
SETUP = {
    "bash": ["PS1=", ". '%s/parv.bash'" % completions,
             "bind 'set bell-style none'; bind 'set bracketed-paste off' 2> /dev/null",
             "bind '\"\\ea\": insert-completions'",
             "bind -x '\"\\eg\": printf \"%s\\n\" \"$READLINE_LINE\" > typed/line'"],
    "zsh": ["PS1=; unsetopt beep; setopt interactive_comments",
            "fpath=('%s' $fpath); autoload -Uz compinit; compinit -u -d typed/dump" % completions,
            "shown() { print -r -- \"$BUFFER\" > typed/line }; zle -N shown",
            "bindkey -e; bindkey '\\eg' shown",
            "zstyle ':completion:all-matches:*' completer _all_matches _complete",
            "zstyle ':completion:all-matches:*' insert true",
            "zle -C all-matches complete-word _generic; bindkey '\\ea' all-matches"],
}
KEYS = {"TAB": "\t", "ALL": "\x1ba"}

for name in ("EDITOR", "VISUAL", "BASH_ENV", "ENV"):
    os.environ.pop(name, None)
os.environ.update(TERM="dumb", INPUTRC="/dev/null", HOME=os.getcwd(), LC_ALL="C", HISTFILE="")
child, terminal = pty.fork()
if child == 0:
    os.execvp(shell, COMMANDS[shell])


def drain(seconds):
    """Takes what the shell prints, so that the shell never waits for a reader."""
    while select.select([terminal], [], [], seconds)[0]:
        try:
            if not os.read(terminal, 65536):
                return
        except OSError:
            return


def type_in(keys):
    os.write(terminal, keys.encode())


def left_by(keys):
    """Returns the line that the shell has after these keys, or None if it shows none."""
    if os.path.exists("typed/line"):
        os.unlink("typed/line")
    type_in(keys + "\x1bg")
    for _ in range(6000):
        drain(0.05)
        if os.path.exists("typed/line") and os.path.getsize("typed/line"):
            with open("typed/line") as file:
                line = file.read()
            if line.endswith("\n"):
                type_in("\x05\x15")
                return line.rstrip(" \n")
    return None


for line in SETUP[shell]:
    type_in(line + "\n")
    drain(0.3)
if left_by("ready") != "ready":
    print("FAILED: %s takes no line" % shell)
    sys.exit(1)
failed = 0
for case in sys.stdin.read().splitlines():
    text, key, wanted = case.split("|")
    line = left_by(text + KEYS[key])
    same = line in (wanted, wanted + "=" * text.split()[-1].startswith("--"))
    if key == "ALL" and line is not None:
        front = text.rsplit(" ", 1)[0]
        offered = [word.rstrip("=") for word in line[len(front):].split()]
        same = line.startswith(front) and sorted(offered) == sorted(wanted[len(front):].split())
    if same:
        print("ok: %s completes '%s' to '%s'" % (shell, text, wanted))
    else:
        print("FAILED: %s completes '%s' (%s) to '%s', not '%s'" % (shell, text, key, line, wanted))
        failed = 1
os.write(terminal, b"\x15exit\n")
drain(0.2)
sys.exit(failed)
