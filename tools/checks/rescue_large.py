"""For rescue.sh, which protects what parv-rescue copies: writes large.par2, the set of large/zeros."""
from make.packets import desc_body, ifsc_body, main_body, set_of
with open("large/zeros", "rb") as file:
    content = file.read()
with open("large.par2", "wb") as out:
    owner = bytes(16)
    out.write(set_of(main_body(65536, [owner]), ("filedesc", desc_body(owner, b"zeros", content)),
                     ("ifsc", ifsc_body(owner, content, 65536))))
