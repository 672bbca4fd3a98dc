"""Prints the functions that take the most cycles of all measured calls of an image.

Run controller/run before. Usage: python3 -B controller/cycles_by_function.py ours (or peer)
"""

import bisect
import subprocess
import sys
from collections import Counter

from results import OUT

MOST_FUNCTIONS = 14


def functions(image):
    """The address and the name of each function, by address."""
    found = []
    listing = subprocess.run(["arm-none-eabi-nm", "-n", image],
                             capture_output=True, text=True, check=True).stdout
    for line in listing.splitlines():
        address, kind, name = line.split(None, 2)
        if kind in "tTwW" and not name.startswith("$"):
            found.append((int(address, 16) & ~1, name))
    return found


def main():
    image = "%s/%s" % (OUT, sys.argv[1])
    known = functions(image + ".elf")
    starts = [address for address, _ in known]
    cycles_of = Counter()
    with open(image + ".profile") as profile:
        for line in profile:
            address, cycles = line.split()
            cycles_of[known[bisect.bisect_right(starts, int(address, 16)) - 1][1]] += int(cycles)
    whole = sum(cycles_of.values())
    for name, cycles in cycles_of.most_common(MOST_FUNCTIONS):
        print("%5.1f %%  %12d  %s" % (100 * cycles / whole, cycles, name))


main()
