"""For limits.sh, which protects you from files that are read twice: writes zeros.bin, its set, and a packet file that
begins with the same number of zeros."""
from make.packets import desc_body, main_body, set_of
owner, content = bytes(16), bytes(8 << 20)
with open("zeros.bin", "wb") as out:
    out.write(content)
with open("zeros.par2", "wb") as out:
    out.write(set_of(main_body(65536, [owner]), ("filedesc", desc_body(owner, b"zeros.bin", content))))
with open("padded.par2", "wb") as out:
    out.write(content)
