"""Times scikit-image's max_tree, label and area_closing beside our component tree, labels and filling, on the same pictures in one run.

max_tree runs on the inverted picture and answers a parent for each pixel, not numbered nodes; label answers the components of the section at the median.
So these results are not the same, and the ratios say only what a user of that library would see.
area_closing answers what our filling does: it fills where a component has strictly fewer pixels than the threshold and keeps the height at which one has as many or more.
It is compared in every pixel for every least size from 1 to n, and a difference ends the run. Needs target/bench/libours.so (bench/run).
"""

import ctypes
import time

import numpy
from our_library import N, SIDE, WALL, bench_pixels, file_pixels, names, ours
from skimage.measure import label
from skimage.morphology import area_closing, max_tree

ROUNDS = 15
TIMED_SIZE = 12                 # the least size of a part whose filling is timed
SMALL_PICTURES = 150            # of each number of values
SMALL_SIDE = 7                  # the largest side of those
LEAST_SIDE = 3                  # of a picture for scikit-image
VALUES = (2, 3, 5, 16, 256)     # how many a picture by chance has
LONG_SHAPES = ((1, SIDE), (SIDE, 1), (2, SIDE), (SIDE, 3), (7, SIDE))

bytes_pointer = ctypes.POINTER(ctypes.c_uint8)
words_pointer = ctypes.POINTER(ctypes.c_uint16)


def lent_words(count):
    memory = numpy.zeros(count, numpy.uint16)
    return memory, memory.ctypes.data_as(words_pointer), ctypes.c_size_t(count)


def picture_of(pixels):
    return numpy.frombuffer(bytearray(pixels), numpy.uint8).reshape(SIDE, SIDE)


def connectivity_of(adjacency):
    return 1 if adjacency == 4 else 2


def our_filling(adjacency, picture):
    """Our filling of a picture as a function of the least size; every call writes the same output."""
    height, width = picture.shape
    n = picture.size
    pixels, out = picture.ravel(), numpy.zeros_like(picture)
    work, work_pointer, work_length = lent_words(5 * n)
    pixels_pointer, out_pointer = (memory.ctypes.data_as(bytes_pointer) for memory in (pixels, out))
    size = ctypes.c_size_t(n)

    def fill(s):
        if ours.controller_fill_small_parts(adjacency, width, height, pixels_pointer, size, s,
                                            out_pointer, size, work_pointer, work_length) != 0:
            raise SystemExit("filling: refused")
        return out

    return fill


def least(call, repeats):
    best = None
    for _ in range(ROUNDS):
        began = time.perf_counter_ns()
        for _ in range(repeats):
            call()
        taken = (time.perf_counter_ns() - began) / repeats
        best = taken if best is None else min(best, taken)
    return best / 1000


def row(number, adjacency):
    picture = picture_of(bench_pixels(number))
    pixels_pointer = picture.ctypes.data_as(bytes_pointer)
    heights = numpy.zeros(N, numpy.uint8)
    lists = [lent_words(N) for _ in range(3)]
    work, work_pointer, work_length = lent_words(5 * N)
    size = ctypes.c_size_t(N)
    height = int(numpy.median(picture))
    inverted = 255 - picture
    section = picture <= height
    connectivity = connectivity_of(adjacency)
    fill = our_filling(adjacency, picture)

    def our_tree():
        ours.controller_component_tree(adjacency, SIDE, SIDE, pixels_pointer, size,
                                       heights.ctypes.data_as(bytes_pointer), size, lists[0][1], size,
                                       lists[1][1], size, lists[2][1], size, work_pointer, work_length)

    def our_labels():
        return ours.controller_label_section(adjacency, SIDE, SIDE, pixels_pointer, size, ctypes.c_uint8(height),
                                             lists[0][1], size, work_pointer, work_length)

    theirs = label(section, connectivity=connectivity)
    if our_labels() != theirs.max():
        raise SystemExit("labels: another number of components")
    pairs = [
        (our_tree, lambda: max_tree(inverted, connectivity), 5),
        (our_labels, lambda: label(section, connectivity=connectivity), 50),
        (lambda: fill(TIMED_SIZE), lambda: area_closing(picture, TIMED_SIZE, connectivity), 5),
    ]
    ratios = [least(first, repeats) / least(second, repeats) for first, second, repeats in pairs]
    return f"| {names[number]} |" + "".join(f" {ratio:.3f} |" for ratio in ratios)


def small_pictures():
    """Pictures by chance, the same in every run."""
    chance = numpy.random.RandomState(2026)
    for values in VALUES:
        for _ in range(SMALL_PICTURES):
            yield chance.randint(0, values, chance.randint(1, SMALL_SIDE + 1, 2)).astype(numpy.uint8)
        for shape in LONG_SHAPES:
            yield chance.randint(0, values, shape).astype(numpy.uint8)


def with_least_sides(picture):
    """Below a side of 3 scikit-image 0.19 takes wrong neighbours. Pixels of 255 beside the picture join nothing below that height."""
    missing = [(0, max(0, LEAST_SIDE - side)) for side in picture.shape]
    return numpy.pad(picture, missing, constant_values=255)


def their_filling(adjacency, picture):
    """The same with scikit-image. Its tree is made once: it does not depend on the size."""
    height, width = picture.shape
    connectivity = connectivity_of(adjacency)
    large = with_least_sides(picture)
    parent, order = max_tree(255 - large, connectivity)
    return lambda s: area_closing(large, s, connectivity, parent=parent, tree_traverser=order)[:height, :width]


def compare_fillings(name, picture):
    """Compares all least sizes; answers how many runs that are."""
    for adjacency in (4, 8):
        fill, closing = our_filling(adjacency, picture), their_filling(adjacency, picture)
        for s in range(1, picture.size + 1):
            if not numpy.array_equal(fill(s), closing(s)):
                raise SystemExit(f"filling: {name}, adjacency {adjacency}, least size {s}: scikit-image differs\n{picture}")
    return 2 * picture.size


def compare_all_fillings():
    pictures = [(name, picture_of(bench_pixels(number))) for number, name in enumerate(names)]
    pictures += [(WALL, picture_of(file_pixels(WALL)))]
    pictures += [("by chance", picture) for picture in small_pictures()]
    compared = sum(compare_fillings(name, picture) for name, picture in pictures)
    print(f"\nfill_small_parts and area_closing: the same on {len(pictures)} pictures with both adjacencies and every least size, {compared} runs")


compare_all_fillings()
print("\nTime of ours over time of scikit-image, 40 by 40; ours is called from Python too")
for adjacency in (4, 8):
    print(f"\nAdjacency {adjacency}:\n\n| picture | component_tree / max_tree | label_section / label |"
          f" fill_small_parts, {TIMED_SIZE} / area_closing |\n|---|---|---|---|")
    for number in range(len(names)):
        print(row(number, adjacency))
