"""For rescue.sh, which protects what parv-rescue copies: writes wrong.par2. Each slice has its checksums, but the MD5
of the file belongs to another file."""
from make.packets import desc_body, ifsc_body, main_body, set_of
owner = bytes(16)
with open("wrong.par2", "wb") as out:
    out.write(set_of(main_body(4, [owner]), ("filedesc", desc_body(owner, b"wrong", b"abcdefgh")),
                     ("ifsc", ifsc_body(owner, b"abcdefgX", 4))))
