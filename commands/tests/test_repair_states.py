"""Repairs that are ended by force inside recoveries, at each state in which earlier ones may have left the folder."""

from __future__ import annotations

import unittest
from typing import Dict, List, Tuple

from parv_commands.repair import command as repair

from . import test_repair_crashes
from .rooms import KILLED, At, Noting
from .test_repair_crashes import damage


class States(test_repair_crashes.Repairs):
    def each_state(self) -> Dict[str, Tuple[Tuple[int, str], ...]]:
        """Starts a run from each state that runs leave when they are ended by force, until no state is new. Returns the
        calls that lead to each. Only one run is made from equal states, since such runs are the same."""
        found: Dict[str, Tuple[Tuple[int, str], ...]] = {}
        waiting: List[Tuple[Tuple[int, str], ...]] = [()]
        while waiting:
            path = waiting.pop(0)
            damage(self.room)
            held = self.room.contents()
            for point in path:
                ended = self.room.run(repair.main, ["room"], At(*point, KILLED))
                self.assertEqual(ended.status, 137, (path, ended))
            if path:
                self.assertEqual(found[self.room.state()], path)
            noting = Noting(self.room, held)
            self.completes(path, self.room.run(repair.main, ["room"], noting))
            self.is_held(path, held)
            for number, when, state, lost in noting.noted():
                self.assertEqual(lost, 0, (path, number, when))
                if state not in found:
                    found[state] = (*path, (number, when))
                    waiting.append(found[state])
        return found

    def test_kills_inside_recoveries_lose_nothing_however_many(self) -> None:
        found = self.each_state()
        self.assertGreater(len(found), 100)
        self.assertGreater(max(map(len, found.values())), 1)


if __name__ == "__main__":
    unittest.main()
