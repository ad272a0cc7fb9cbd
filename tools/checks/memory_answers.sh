#!/usr/bin/env bash
# If this fails, parv may say "out of memory" although there is memory, or ask for far more of it than it needs.
#
# No clause says when memory may be refused, so a body could return that error whenever it wants. So each place in the
# sources that makes this error by hand, and each that asks for capacity, is in memory_answers.txt with a reason. Each
# bug of tools/faults that names this check is injected into a copy of the sources and must be refused there; each
# harmless change must be accepted. It reads only the sources, and runs no program.
export PYTHONDONTWRITEBYTECODE=1
# (PLANTED is set in a copy with an injected bug, in which no other one is injected.)
"$(dirname "$0")/../memory/answers.py" "$([ -z "${PLANTED-}" ] && echo check || echo read)"
