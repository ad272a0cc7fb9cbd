"""For address_space.sh, which protects parv against crashes and wrong answers when memory is short: writes large
packets and files, and packets inside one another."""
from bench.memory_cost import one_file
from hostile.hostile_packets import nested_creators
from make.packets import desc_body, main_body, packet, set_of
owner, content = bytes(16), bytes(64 << 20)
with open("large.par2", "wb") as file:
    file.write(packet(owner, "recvslic", bytes(4) + content))
with open("sparse.par2", "wb") as file:
    file.truncate(1 << 30)
with open("zeros.bin", "wb") as file:
    file.truncate(len(content))
with open("zeros.par2", "wb") as file:
    file.write(set_of(main_body(65536, [owner]), ("filedesc", desc_body(owner, b"zeros.bin", content))))
with open("window.par2", "wb") as file:
    file.write(one_file(len(content), 4, 1))
with open("nested.par2", "wb") as file:
    file.write(nested_creators(128 << 10))
