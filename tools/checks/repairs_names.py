"""For repairs.sh, which protects repairs that were once a problem: writes into `room` the set of 40 empty files with
long names of unprintable bytes."""
from make.packets import desc_body, file_id, main_body, set_of
deep = b"\xff" * 200 + b"/" + (b"\xfe" * 200 + b"/") * 18
names = [deep + b"%05d" % number for number in range(40)]
ids = [file_id(name, b"") for name in names]
with open("room/set.par2", "wb") as out:
    out.write(set_of(main_body(1024, sorted(ids, key=lambda each: each[::-1])),
                     *[("filedesc", desc_body(owner, name)) for owner, name in zip(ids, names)]))
