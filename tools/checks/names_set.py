"""For names.sh, which protects files that a set names but you don't: writes that.par2, the set of one file of the given
name with the content abcdefgh, and prints its ID."""
import os, sys
from make.packets import desc_body, file_id, ifsc_body, main_body, md5, set_of
name, content = os.fsencode(sys.argv[1]), b"abcdefgh"
owner = file_id(name, content)
main = main_body(4, [owner])
with open("that.par2", "wb") as out:
    out.write(set_of(main, ("filedesc", desc_body(owner, name, content)), ("ifsc", ifsc_body(owner, content, 4))))
print(md5(main).hex())
