"""Prints the time of each call at 40 by 40, by the cycle model of cycles.c.

With a wait state a word of the flash takes one cycle more, an instruction's or a constant's, as if
nothing were fetched ahead. Ours is compiled by the kit's clang at -O3; the peers are those of
bench/ in C, compiled by gcc at -O2, on the same emulated machine.
"""

from results import runs, table

MEGAHERTZ = 48
WALL = "examples/wall.pgm"
ADJACENCIES = ("4", "8")
HANDBOOKS = ("5", "4")
NO_ADJACENCY = "0"              # of the calls that take none


def milliseconds(cycles):
    """The time of so many cycles, in three digits, or to the hundredth or the whole of one."""
    time = cycles / MEGAHERTZ / 1000
    decimals = 0 if time >= 100 else 1 if time >= 10 else 2
    return "%.*f" % (decimals, time)


def takes(key, adjacency):
    """Whether a run is one under an adjacency, or of a call that takes none."""
    return key[1] in (adjacency, NO_ADJACENCY)


def ratio(ours, peer, key):
    """Cycles of ours over those of the peer, or nothing if there is no such peer."""
    return "%.2f" % (ours[key].m0plus / peer[key].m0plus) if key in peer else ""


def wall_table(adjacency, ours, peer):
    """All that was counted on the example wall."""
    head = ["call", "instructions", "cycles, M0+", "cycles, M0", "ms, M0+", "ms, M0",
            "ms, M0+, one wait state", "cycles over the peer's"]
    rows = []
    for key, run in ours.items():
        if takes(key, adjacency) and key[2] == WALL:
            rows.append(["`%s`" % key[0], format(run.instructions, ","), format(run.m0plus, ","),
                         format(run.m0, ","), milliseconds(run.m0plus), milliseconds(run.m0),
                         milliseconds(run.m0plus + run.words), ratio(ours, peer, key)])
    table("%s, adjacency %s, %d MHz" % (WALL, adjacency, MEGAHERTZ), head, rows)


def picture_table(title, adjacency, keys, value):
    """A row a picture, a column a call."""
    key_of = {(key[0], key[2]): key for key in keys if takes(key, adjacency)}
    titles = list(dict.fromkeys(name for name, _ in key_of))
    pictures = list(dict.fromkeys(picture for _, picture in key_of))
    table("%s, adjacency %s" % (title, adjacency), ["picture"] + ["`%s`" % name for name in titles],
          [[picture] + [value(key_of[name, picture]) for name in titles]
           for picture in pictures])


def over_query(ours, handbook, key):
    """Cycles of a touch by a handbook over those of the place query of a key."""
    return ours[("touch_place, %s" % handbook,) + key[1:]].m0plus / ours[key].m0plus


def query_table(ours):
    """Touches over place queries on each picture; then the largest by each handbook."""
    keys = [key for key in ours if key[0] == "query_place"]
    columns = [(handbook, adjacency) for handbook in HANDBOOKS for adjacency in ADJACENCIES]
    rows = [[picture] + ["%.3f" % over_query(ours, handbook, ("query_place", adjacency, picture))
                         for handbook, adjacency in columns]
            for picture in dict.fromkeys(key[2] for key in keys)]
    table("Cycles of `touch_place` over those of `query_place`, ours, Cortex-M0+",
          ["picture"] + ["handbook %s, adjacency %s" % column for column in columns], rows)
    print("\nThe largest is %s." % " and ".join(
        "%.3f by handbook %s" % (max(over_query(ours, handbook, key) for key in keys), handbook)
        for handbook in HANDBOOKS))


def span(values, shown):
    """The least and the most of some numbers."""
    least, most = shown(min(values)), shown(max(values))
    return least if least == most else "%s to %s" % (least, most)


def span_table(ours, peer):
    """Least and most over the pictures."""
    rows = []
    for name in dict.fromkeys(key[0] for key in peer):
        cells = ["`%s`" % name]
        for adjacency in ADJACENCIES:
            keys = [key for key in peer if key[0] == name and takes(key, adjacency)]
            cells.append(span([ours[key].m0plus for key in keys], milliseconds))
            cells.append(span([ours[key].m0plus / peer[key].m0plus for key in keys], "{:.2f}".format))
        rows.append(cells)
    head = ["call"] + ["%s, adjacency %s" % (what, adjacency) for adjacency in ADJACENCIES
                       for what in ("ms", "cycles over the peer's")]
    table("Least and most over the pictures, Cortex-M0+ at %d MHz without wait states" % MEGAHERTZ,
          head, rows)


def main():
    ours, peer = runs("ours"), runs("peer")
    for adjacency in ADJACENCIES:
        wall_table(adjacency, ours, peer)
    span_table(ours, peer)
    for adjacency in ADJACENCIES:
        picture_table("Milliseconds, Cortex-M0+ at %d MHz without wait states" % MEGAHERTZ,
                      adjacency, peer, lambda key: milliseconds(ours[key].m0plus))
    for adjacency in ADJACENCIES:
        picture_table("Cycles of ours over those of the peer in C (gcc -O2)", adjacency, peer,
                      lambda key: ratio(ours, peer, key))
    query_table(ours)


main()
