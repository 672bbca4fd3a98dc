"""Our calls and the pictures for Python. Needs target/bench/libours.so (bench/run)."""

import ctypes

SIDE = 40
N = SIDE * SIDE
WALL = "examples/wall.pgm"

ours = ctypes.CDLL("target/bench/libours.so")
for call in ("component_tree", "label_section", "fill_small_parts", "watershed_of", "store_rows",
             "restore_rows"):
    getattr(ours, "controller_" + call).restype = ctypes.c_uint64
count = ctypes.c_uint.in_dll(ours, "picture_count").value
names = [name.decode() for name in (ctypes.c_char_p * count).in_dll(ours, "picture_names")]


def bench_pixels(number):
    """The picture of this number in pictures.c, 40 by 40."""
    pixels = ctypes.create_string_buffer(N)
    ours.make_picture(number, SIDE, pixels)
    return pixels.raw


def file_pixels(path):
    """The pixels of a P5 file of 40 by 40."""
    with open(path, "rb") as file:
        return file.read()[-N:]
