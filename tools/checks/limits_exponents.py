"""For limits.sh, which protects large sets from wrong answers: writes exponents.par2, the set of g.bin with 40,000
recovery slices."""
import random
from make.packet_files import DESC_OF_G, G_SET, MAIN_OF_G, SUMS_OF_G
from make.packets import packet, recvslic_body
exponents = [*range(25535, 65545), *range(30000, 32000)]
random.Random(1).shuffle(exponents)
with open("exponents.par2", "wb") as out:
    out.write(MAIN_OF_G + DESC_OF_G + SUMS_OF_G)
    for exponent in exponents:
        out.write(packet(G_SET, "recvslic", recvslic_body(exponent, b"data")))
