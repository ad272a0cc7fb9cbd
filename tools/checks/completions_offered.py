"""For completions.sh, which protects you from wrong offers when you press TAB: asks fish what it offers for each line
of standard input. These are the lines that completions_typed.py reads. For the key TAB, fish must offer the one word
that is put in, or nothing; for ALL, it must offer all these words."""
import re
import subprocess
import sys

completions = sys.argv[1]
failed = 0
for case in sys.stdin.read().splitlines():
    text, key, wanted = case.split("|")
    ask = 'source "$argv[1]/parv.fish"; complete -C "$argv[2]"'
    said = subprocess.run(["fish", "--no-config", "-c", ask, completions, text],
                          capture_output=True, text=True)
    offered = sorted({line.split("\t")[0] for line in said.stdout.splitlines()})
    front = len(re.match(r"(?:.*[^\\])? |", text).group())
    if wanted == text.rstrip():
        words = []
    elif key == "TAB":
        words = [wanted[front:].replace("\\", "")]
    else:
        words = sorted(set(wanted[front:].split()))
    if offered == words and not said.stderr:
        print("ok: fish offers for '%s' %s" % (text, " ".join(words) or "nothing"))
    else:
        print("FAILED: fish offers for '%s' %s, not %s %s" % (text, offered, words, said.stderr))
        failed = 1
sys.exit(failed)
