"""For slice_map.sh, which protects you from names in a set: writes odd.par2 and its files. Their names are markup, or
lead elsewhere."""
import os
from make.packets import desc_body, file_id, ifsc_body, main_body, set_of
names = [b"<script>alert('1')</script>", b"a&b\"c\".bin", b"\x1b[31mred\n", os.path.realpath(b"fifo"), b"../odd/fifo"]
os.mkdir("odd")
os.mkfifo("odd/fifo")
os.mkfifo("fifo")
bodies, ids = [], []
for name in names:
    content = b"a slice of " + name * 4000
    ids.append(file_id(name, content))
    bodies += [("filedesc", desc_body(ids[-1], name, content)), ("ifsc", ifsc_body(ids[-1], content, 64))]
    if b"/" not in name:
        with open(b"odd/" + name.replace(b"/", b""), "wb") as out:
            out.write(content)
with open("odd.par2", "wb") as out:
    out.write(set_of(main_body(64, ids), *bodies))
