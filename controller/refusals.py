"""Counts the answers of the sweep. Fails if a refusal that a header lists was not reached.

Each output, list and work memory must have been refused with 9 when it alone was too short, each
least size that no picture has with 13, each handbook that is none with 14, each largest sample
that no file has with 4, and a pixel above the largest sample with 6. A refusal must leave all lent
memory as it was.
"""

import sys
from collections import Counter, namedtuple

import headers
from results import CALLS, OUT, lines, symbol, table

SUCCESS = 0
TOO_SHORT = 9

# The changes that a call must have refused as such, by the refusal's number. A call that takes such
# arguments too must be named here.
REFUSED_CHANGES = {
    "fill_small_parts": {13: ("size 0", "size 65537", "size largest", "size n + 1")},
    "touch_place": {14: ("handbook 3", "handbook 6", "handbook 65540", "handbook largest")},
    "write_file": {4: ("sample 0", "sample 256", "sample 65537", "sample largest"),
                   6: ("first pixel above", "middle pixel above", "last pixel above",
                       "all pixels above")},
}
NUMBERS = sorted(set().union(*headers.refusals().values()))     # of all refusals

# A line of the sweep; number is that of the refusal.
Swept = namedtuple("Swept", "call change before number after")


def lent_lengths(call):
    """How many lengths of lent memory a call takes beside that of its input."""
    _, parameters = headers.functions()[symbol(call)]
    return sum("size_t" in parameter for parameter in parameters) - 1


def missed_numbers(reached):
    """What the headers list and the sweep did not reach."""
    listed = headers.refusals()
    return ["%s with %d" % (call, number) for call in CALLS
            for number in [SUCCESS] + listed[symbol(call)] if not reached[call, number]]


def missed_lengths(swept):
    """The calls with a length that was not too short, and refused for it, by itself."""
    changes = {(line.call, line.change) for line in swept if line.number == TOO_SHORT}
    refused = Counter(call for call, _ in changes)
    lengths = {call: lent_lengths(call) for call in CALLS}
    return ["%s with %d for each of its %d lengths" % (call, TOO_SHORT, lengths[call])
            for call in CALLS if refused[call] != lengths[call]]


def missed_changes(swept):
    """The changes of arguments that were not refused as such."""
    refused = {(line.call, line.number, line.change) for line in swept}
    return ["%s with %d for %s" % (call, number, change)
            for call, numbers in REFUSED_CHANGES.items()
            for number, changes in numbers.items()
            for change in changes if (call, number, change) not in refused]


def changed_memory(swept):
    """The refusals that did not leave lent memory as it was."""
    said = ("%s with %d leaves other lent memory (%s)" % (line.call, line.number, line.change)
            for line in swept if line.number != SUCCESS and line.before != line.after)
    return list(dict.fromkeys(said))


def read_lines():
    """The lines of the sweep."""
    return [Swept(call, change, before, int(answer, 16) >> 32, after)
            for call, _, _, _, change, before, answer, after in lines(OUT + "/ours.txt", "swept")]


def main():
    swept = read_lines()
    reached = Counter((line.call, line.number) for line in swept)
    table("Calls of the sweep, by the refusal's number", ["call", "accepted"] + NUMBERS,
          [["`%s`" % call, reached[call, SUCCESS]]
           + [reached[call, number] or "" for number in NUMBERS] for call in CALLS])
    missed = missed_numbers(reached) + missed_lengths(swept) + missed_changes(swept)
    faults = ["the sweep did not reach " + said for said in missed] + changed_memory(swept)
    for said in faults:
        print("controller: " + said, file=sys.stderr)
    sys.exit(1 if faults else 0)


main()
