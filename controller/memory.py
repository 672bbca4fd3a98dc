"""Prints the memory of each call at 40 by 40. Fails if one other than the tablet's does not fit.

It fails too if a painted stack is deeper than the bound from the frames.
"""

import sys

from results import CALLS, OUT, TABLET_CALLS, rows_of, runs, symbol, table
from stack_bound import bounds

ROOM = 32768                    # bytes of the controller
HEAD = ("call", "lent", "stack, every input", "stack, painted", "caller's arguments and frame",
        "together", "left of %d" % ROOM)


def row(bound, ours, nothing):
    """The numbers of some runs of a call, as in the head."""
    lent = max(run.lent for run in ours)
    caller = max(run.stack for run in nothing)
    painted = max(run.stack for run in ours) - caller
    together = lent + bound + caller
    return [lent, bound, painted, caller, together, ROOM - together]


def all_rows(found, ours, nothing):
    """The numbers of each row of the table, by its name."""
    return {name: row(found[symbol(call)][0], measured, rows_of(call, nothing)[name])
            for call in CALLS for name, measured in rows_of(call, ours).items()}


def fault(name, numbers):
    """What is wrong with a row, or nothing."""
    _, bound, painted, _, together, left = numbers
    if painted > bound:
        return "%s: the painted stack, %d, is deeper than the bound, %d" % (name, painted, bound)
    if left < 0 and name not in TABLET_CALLS:
        return "%s: %d bytes do not fit" % (name, together)
    return None


def shown(name, numbers):
    """The numbers as cells; a call of the tablet need not fit."""
    short = "does not fit (tablet)" if name in TABLET_CALLS else "does not fit"
    left = numbers[-1] if numbers[-1] >= 0 else short
    return ["`%s`" % name] + numbers[:-1] + [left]


def main():
    ours, nothing = runs("ours"), runs("nothing")
    libraries = ["%s/%s.su" % (OUT, name) for name in ("board_controller", "board_c")]
    found = bounds(OUT + "/ours.elf", libraries, [symbol(call) for call in CALLS])
    rows = all_rows(found, ours, nothing)
    table("Memory at 40 by 40 in bytes", HEAD, [shown(*item) for item in rows.items()])
    table("The deepest chain of calls, with the bytes of each frame", ["call", "chain"],
          [["`%s`" % call, ", ".join(found[symbol(call)][1])] for call in CALLS])
    faults = [said for said in (fault(*item) for item in rows.items()) if said]
    for said in faults:
        print("controller: " + said, file=sys.stderr)
    sys.exit(1 if faults else 0)


main()
