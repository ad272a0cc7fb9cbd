"""For memory.sh, which protects small machines: writes deep.par2, a set of one file in slices of the greatest size, the
last of which is short."""
from bench.memory_cost import one_file
with open("deep.par2", "wb") as out:
    out.write(one_file(268435456, 268435461, 2))
