"""What the images of the controller printed and what was counted, and tables of it."""

from collections import defaultdict, namedtuple

OUT = "target/controller"
CALLS = ("label_section", "component_tree", "check_tree", "pass_between", "is_lowerable",
         "watershed_of", "fill_small_parts", "query_place", "touch_place", "list_patches",
         "write_file", "store_rows", "restore_rows", "board_read", "board_watershed",
         "board_place")
TABLET_CALLS = ("board_watershed", "board_place")

# One measured call. The lent memory and the stack are in bytes; m0plus and m0 are the cycles of a
# Cortex-M0+ and of a Cortex-M0 without wait states.
Run = namedtuple("Run", "lent stack instructions m0plus m0 words")


def symbol(call):
    """The function's name in C."""
    return call if call.startswith("board_") else "controller_" + call


def lines(path, kind):
    """The fields of the lines of one kind."""
    with open(path) as file:
        rows = [line.rstrip("\n").split("|") for line in file]
    return [row[1:] for row in rows if row[0] == kind]


def runs(image):
    """The measured calls of an image, by title, adjacency and picture."""
    used = lines("%s/%s.txt" % (OUT, image), "used")
    with open("%s/%s.counts" % (OUT, image)) as file:
        counts = [[int(number) for number in line.split("|")] for line in file]
    assert len(used) == len(counts), (image, len(used), len(counts))
    return {tuple(row[:3]): Run(int(row[3]), int(row[4]), *count)
            for row, count in zip(used, counts)}


def rows_of(call, measured):
    """The runs of one call by the row of a table: its titles if the bare name is one, else that."""
    rows = defaultdict(list)
    for (title, _, _), run in measured.items():
        if title.split(",")[0] == call:
            rows[title].append(run)
    return rows if call in rows else {call: sum(rows.values(), [])}


def table_row(cells):
    """A row of a table in Markdown."""
    return "| " + " | ".join(str(cell) for cell in cells) + " |"


def table(title, head, rows):
    """Prints a table in Markdown."""
    print("\n%s\n" % title)
    print(table_row(head))
    print("|" + "---|" * len(head))
    for row in rows:
        print(table_row(row))
