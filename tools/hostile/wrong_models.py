#!/usr/bin/env python3
"""Makes mistakes in the models that hostile.py compares parv with, one at a time. hostile.py must notice each.

usage: wrong_models.py [CASES]

Each edit is made in a copy of the tools, where hostile.py runs its first 200 cases. If none of these differs from parv,
the first CASES (4000) run. If they all agree with parv too, no case tests the limit that the edit changes. A model that
takes more than 2 GiB counts as noticed too: it goes on with a set of more slices than there may be.

PARV is the program (crates/parv/out/parv).
"""

import glob
import os
import resource
import shutil
import subprocess
import sys
import tempfile
from concurrent.futures import ThreadPoolExecutor

sys.path[0] = os.path.dirname(os.path.dirname(os.path.realpath(__file__)))  # imports are relative to tools/

from hostile.runs import HERE, PARV, TOOLS

MOST_MEMORY = 2 << 30   # of each process, in bytes

EDITS = [
    ("list_packets.py", "length < 64", "length < 68"),
    ("list_packets.py", "length < 64", "length < 60"),
    ("list_packets.py", "length % 4 != 0 or ", ""),
    ("list_packets.py", "at + length > len(data)", "at + length > len(data) + 4"),
    ("list_packets.py", "at + length > len(data)", "at + length >= len(data)"),
    ("list_packets.py", "at + length > len(data)", "(at + length) % 2**64 > len(data)"),
    ("list_packets.py", "at + length > len(data)", "at + length % 2**32 > len(data)"),
    ("list_packets.py", "data[at + 32:at + length]", "data[at + 48:at + length]"),
    ("list_packets.py", "data.find(MAGIC, at + 1)", "data.find(MAGIC, at + (found or [1])[0])"),
    ("list_packets.py", "0x20 <= byte <= 0x7E", "0x20 <= byte <= 0x7F"),
    ("describe_set.py", "LIMIT = 1048576", "LIMIT = 1048572"),
    ("describe_set.py", "LIMIT = 1048576", "LIMIT = 1048580"),
    ("describe_set.py", "GREATEST_SIZE = 268435456", "GREATEST_SIZE = 268435452"),
    ("describe_set.py", "GREATEST_SIZE = 268435456", "GREATEST_SIZE = 268435460"),
    ("describe_set.py", "len(ids) > MOST", "len(ids) > MOST - 1"),
    ("describe_set.py", "len(ids) > MOST", "len(ids) > MOST + 1"),
    ("describe_set.py", "// 20 > MOST", "// 20 > MOST - 1"),
    ("describe_set.py", "// 20 > MOST", "// 20 > MOST + 1"),
    ("describe_set.py", "for file in files) > MOST", "for file in files) > MOST - 1"),
    ("describe_set.py", "for file in files) > MOST", "for file in files) > MOST + 1"),
    ("describe_set.py", "file.slices for file in files) >",
     "file.slices for file in files) % 2**64 >"),
    ("describe_set.py", "file.slices for file in files) >",
     "file.slices % 2**32 for file in files) >"),
    ("describe_set.py", "(len(body) - 12) // 16 < number", "(len(body) - 12) // 16 <= number"),
    ("describe_set.py", "(len(body) - 12) // 16 < number(body[8:12])", "False"),
    ("describe_set.py", "size == 0 or size % 4", "size % 4"),
    ("describe_set.py", "size == 0 or size % 4", "size == 0"),
    ("describe_set.py", "len(set(ids)) < len(ids)", "False"),
    ("describe_set.py", "len(set(ids)) < len(ids)", "len(set(ids[1:])) < len(ids[1:])"),
    ("describe_set.py", "if len(set(ids)) <",
     "ids = ids[:number(body[8:12])]\n    if len(set(ids)) <"),
    ("describe_set.py", "if len(set(ids)) < len(ids)",
     "if any(len(set(part)) < len(part) for count in [number(body[8:12])]\n"
     "           for part in (ids[:count], ids[count:]))"),
    ("describe_set.py", "hashlib.md5(body).hexdigest() != owner", "False"),
    ("describe_set.py", "len(body) < 56 or", "len(body) < 60 or"),
    ("describe_set.py", "1 <= len(name) <= 4096", "len(name) <= 4096"),
    ("describe_set.py", "1 <= len(name) <= 4096", "1 <= len(name) <= 4095"),
    ("describe_set.py", "1 <= len(name) <= 4096", "1 <= len(name) <= 4097"),
    ("describe_set.py", ' or b"\\0" in name', ""),
    ("describe_set.py", ">= 1 << 63", ">= 1 << 64"),
    ("describe_set.py", ">= 1 << 63", ">= (1 << 63) - 1"),
    ("describe_set.py", "len(body) < 16 or", "len(body) < 20 or"),
    ("describe_set.py", " or (len(body) - 16) % 20", ""),
    ("describe_set.py", "number(body[:4]) > 65534", "number(body[:4]) > 65533"),
    ("describe_set.py", "number(body[:4]) > 65534", "number(body[:4]) > 65535"),
    ("describe_set.py", "len(body) - 4 != size", "len(body) - 4 < size"),
    ("describe_set.py", "key=number", "key=bytes"),
    ("describe_set.py", "first_desc.setdefault(body[:16], body)", "first_desc[body[:16]] = body"),
    ("describe_set.py", "first_sums.setdefault((body[:16], (len(body) - 16) // 20), body)",
     "first_sums[body[:16], (len(body) - 16) // 20] = body"),
    ("describe_set.py", "if text), None)", "), None)"),
    ("describe_set.py", 'len({body[:4] for body in usable.get("recvslic", [])})',
     'len(usable.get("recvslic", []))'),
    ("describe_set.py", "choice in (None, owner)", "True"),
    ("find_slices.py", "offset + own <= len(data)", "True"),
    ("find_slices.py", "range(len(data))", "range(0, len(data), found.size)"),
    ("find_slices.py", "for at, own in same if", "for at, own in same[:1] if"),
    # Tails that are compared as whole windows, or also if they aren't asked for; full-length slices that aren't found
    # then.
    ("find_slices.py", "looked = own if tails else found.size", "looked = found.size"),
    ("find_slices.py", "looked = own if tails else found.size", "looked = own"),
    ("find_slices.py", "if sums is not None:", "if sums is not None and not (tails and own == found.size):"),
    ("find_slices.py", "data[offset:offset + looked].ljust(found.size,", "data[offset:offset + looked].ljust(looked,"),
    ("find_slices.py", "offset + own <= len(data)", "tails or offset + own <= len(data)"),
    # Tails only at the ends of files, in another order, or by the MD5 of the offset before.
    ("find_slices.py", "if crc in crcs[looked]:",
     "if crc in crcs[looked] and (looked == found.size or offset + looked >= len(data)):"),
    ("find_slices.py", "in sorted(seen)", "in seen"),
    ("find_slices.py", "in sorted(seen)",
     "in sorted(seen, key=lambda at: (tails and slices_of(found)[at][2] < found.size, at))"),
    ("find_slices.py", "(hashlib.md5(window).digest(), crc)",
     "(hashlib.md5(window).digest() if looked == found.size else\n"
     "         wanted_of.__dict__.setdefault(str(looked), hashlib.md5(window).digest()), crc)"),
    # The number of their lengths.
    ("find_slices.py", "MOST_TAILS = 256", "MOST_TAILS = 255"),
    ("find_slices.py", "MOST_TAILS = 256", "MOST_TAILS = 257"),
    ("find_slices.py", "if sums and own < found.size", "if sums"),
    ("find_slices.py", "if sums and own < found.size", "if own < found.size"),
    ("find_slices.py", "len({own for _, _, own, sums in slices_of(found) if sums and own < found.size})",
     "len([own for _, _, own, sums in slices_of(found) if sums and own < found.size])"),
    ("hostile.py", "if tails and has_too_many_tails(found):", "if has_too_many_tails(found):"),
    # Cursors: the order of their errors, fingerprints that aren't compared or cover less, or the wrong version.
    ("hostile.py", "refused = found and refused_cursor(",
     "refused = found and not (tails and has_too_many_tails(found)) and refused_cursor("),
    ("hostile.py", "if cursor.set != found.id:",
     "if cursor.set != found.id and cursor.mark in (None, mark_of(names, map(len, dict(made.scanned).values()))):"),
    ("hostile.py", "if cursor.set != found.id:", "if False:"),
    ("hostile.py", "elif cursor.mark not in (None,", "elif False and cursor.mark not in (None,"),
    ("hostile.py", "elif cursor.mark not in (None,", "elif cursor.mark not in (0,"),
    ("hostile.py", "text_of(Cursor(found.id, mark,", "text_of(Cursor(found.id, None,"),
    ("hostile.py", "words, words if base == b\"d\" else names", "words, words"),
    ("cursor_texts.py", 'eight(len(name)) + name + eight(length)', 'name + eight(length)'),
    ("cursor_texts.py", 'eight(len(name)) + name + eight(length)', 'eight(len(name)) + name'),
    ("cursor_texts.py", 'eight(len(name)) + name + eight(length)', 'eight(len(name)) + eight(length)'),
    ("cursor_texts.py", 'eight(len(name)) + name + eight(length)', 'name + b"\\0" + eight(length)'),
    ("cursor_texts.py", 'value.to_bytes(8, "little")', 'value.to_bytes(8, "big")'),
    ("cursor_texts.py", 'value.to_bytes(8, "little")', 'value.to_bytes(4, "little")'),
    ("cursor_texts.py", "in zip(names, lengths)", "in sorted(zip(names, lengths))"),
    ("cursor_texts.py", "for form in FORMS:", "for form in FORMS[1:]:"),
    ("cursor_texts.py", "for form in FORMS:", "for form in FORMS[:1]:"),
    ("cursor_texts.py", '"([0-9a-f]{32})"', '"([0-9a-fA-F]{32})"'),
    ("cursor_texts.py", '"([0-9a-f]{32})"', '"([0-9a-f]{1,32})"'),
    ("cursor_texts.py", '"(0|[1-9][0-9]*)"', '"([0-9]+)"'),
    ("cursor_texts.py", '"(0|[1-9][0-9]*)"', '"(0|[+]?[1-9][0-9]*)"'),
    ("cursor_texts.py", 'f"2:{DIGITS}', 'f"[0-9]:{DIGITS}'),
    ("cursor_texts.py", "value < bound", "value <= bound"),
    ("cursor_texts.py", "re.fullmatch(form, text)", "re.match(form, text)"),
    ("tell_states.py", "need <= found.have", "need < found.have"),
    ("tell_states.py", "len(data) == file.length and ", ""),
    ("hostile.py", "sighting >= start", "sighting > start"),
    ("hostile.py", "len(left) >= limit", "len(left) > limit"),
]


def notices(edit, cases):
    """Returns the first line that says how the wrong model differs from parv, or None."""
    module, old, new = edit
    with tempfile.TemporaryDirectory() as folder:
        for part in ("hostile", "make", "models"):
            shutil.copytree(os.path.join(TOOLS, part), os.path.join(folder, part))
        path, = glob.glob(os.path.join(folder, "*", module))
        with open(path) as file:
            text = file.read()
        if text.count(old) != 1:
            sys.exit(f"{module}: it isn't one place that has {old!r}")
        with open(path, "w") as file:
            file.write(text.replace(old, new))
        ran = subprocess.run([sys.executable, "hostile/hostile.py", "--cases", str(cases)], cwd=folder,
                             env={**os.environ, "PARV": PARV}, capture_output=True, text=True)
        if "MemoryError" in ran.stderr:
            return "its model takes more than 2 GiB"
        if ran.stderr or ran.returncode not in (0, 1):
            sys.exit(f"{edit}: {ran.stderr}")
        return ran.stdout.splitlines()[0] if ran.returncode else None


def main():
    cases = int(sys.argv[1]) if len(sys.argv) > 1 else 4000
    resource.setrlimit(resource.RLIMIT_AS, (MOST_MEMORY, MOST_MEMORY))
    ran = subprocess.run([sys.executable, os.path.join(HERE, "hostile.py"), "--cases", str(cases)],
                         env={**os.environ, "PARV": PARV}, capture_output=True, text=True)
    if ran.returncode:
        sys.exit(f"the model itself: {ran.stdout}{ran.stderr}")
    left = EDITS
    for count in (200, cases):
        unnoticed = []
        with ThreadPoolExecutor(os.cpu_count()) as pool:
            for edit, line in zip(left, pool.map(lambda edit: notices(edit, count), left)):
                module, old, new = edit
                said = f"noticed, {line[:100]}" if line else f"NOT NOTICED by {count} cases"
                print(f"{module}: {new!r} in the place of {old!r}: {said}", flush=True)
                if line is None:
                    unnoticed.append(edit)
        left = unnoticed
    return 1 if left else 0


if __name__ == "__main__":
    sys.exit(main())
