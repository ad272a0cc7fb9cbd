#!/usr/bin/env bash
# If this fails, some proof may rest on a statement that nobody has read, and the program may do what its contracts
# exclude.
#
# A proof by hand can claim anything about ghost state (data that only contracts see) that no clause forbids. So a
# person has read each of them, with the clauses that they prove, the definitions `added_at` and `Reading` that these
# cite, and the module from which they take their lemmas. hand_proofs.txt has the checksums of the versions that were
# read. There may be no other proof by hand, at any depth of a crate's proofs.
cd "$(dirname "$0")/../.." || exit 1
listed() {
    find crates/*/proofs -name Proof.antt -print0
    find crates/parfield/src/counts -name '*.rt' -print0
    printf '%s\0' crates/parfield/specs/{Added,Readings}.antt crates/parfield/proofs/GhostSteps.antt
}
found=$(listed | LC_ALL=C sort -z | xargs -0 -r sha256sum)
if [ "$found" = "$(cat tools/checks/hand_proofs.txt)" ]; then
    echo "ok: no proof by hand but those that were read"
else
    echo "FAILED: proofs by hand: $found"
    exit 1
fi
