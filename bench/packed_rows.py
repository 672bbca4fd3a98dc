"""Packs pictures with zlib before and after storing their rows: whether a gym would save bytes.

These are the example files and their watersheds, then every picture of pictures.c, whether storing
helps or not; then the example wall in light that falls off across it, by several amounts and with
several amounts of noise. A picture that the way back does not give again ends the run with an
error. Needs target/bench/libours.so (bench/run).
"""

import ctypes
import random
import zlib

from our_library import N, SIDE, WALL, bench_pixels, file_pixels, names, ours

FILES = (WALL, "examples/chalk.pgm")
FALLS = (0, 40, 80, 120)        # of the light, in values, from the first pixel to the last
NOISES = (0, 1, 2, 4, 8)        # the most that a pixel is off, in values
SEED = 1                        # of the noise
LARGEST_VALUE = 255
ADJACENCY = 4
WORK_LENGTH = 5 * N             # entries
length = ctypes.c_size_t(N)


def output_of(call, picture, before=(), behind=()):
    """What a call writes; before and behind are its arguments around those that all take."""
    out = ctypes.create_string_buffer(N)
    if call(*before, SIDE, SIDE, picture, length, out, length, *behind) != 0:
        raise SystemExit("packed bytes: refused")
    return out.raw


def watershed(pixels):
    work = (ctypes.c_uint16 * WORK_LENGTH)()
    return output_of(ours.controller_watershed_of, pixels, (ADJACENCY,),
                     (work, ctypes.c_size_t(WORK_LENGTH)))


def stored_form(name, pixels):
    stored = output_of(ours.controller_store_rows, pixels)
    if output_of(ours.controller_restore_rows, stored) != pixels:
        raise SystemExit(f"packed bytes: {name} is not restored")
    return stored


def pictures():
    for path in FILES:
        yield path, file_pixels(path)
        yield "watershed of " + path, watershed(file_pixels(path))
    for number, name in enumerate(names):
        yield name, bench_pixels(number)


def lit(pixels, fall, noise, chance):
    """The picture in light that falls off evenly to the last pixel, with noise."""
    last = 2 * (SIDE - 1)       # steps from the first pixel to the last
    values = (pixel - fall * (place % SIDE + place // SIDE) // last + chance.randint(-noise, noise)
              for place, pixel in enumerate(pixels))
    return bytes(max(0, min(LARGEST_VALUE, value)) for value in values)


def packed_bytes(name, pixels):
    """Packed as they are, and stored."""
    return len(zlib.compress(pixels)), len(zlib.compress(stored_form(name, pixels)))


def print_row(name, before, after):
    print(f"| {name} | {before} | {after} | {after / before:.2f} |")


def print_lit_walls():
    chance = random.Random(SEED)
    print(f"\n{WALL} in light that falls off by so many values, with so much noise: packed bytes"
          " before, after, after over before\n")
    print("| light falls by |" + "".join(f" noise {noise} |" for noise in NOISES))
    print("|---|" + "---|" * len(NOISES))
    for fall in FALLS:
        walls = [lit(file_pixels(WALL), fall, noise, chance) for noise in NOISES]
        cells = [packed_bytes(WALL, wall) for wall in walls]
        print(f"| {fall} |" + "".join(f" {before}, {after}, {after / before:.2f} |"
                                      for before, after in cells), flush=True)


def main():
    packed = [(name, *packed_bytes(name, pixels)) for name, pixels in pictures()]
    print(f"\nPacked bytes of {N} pixels, zlib {zlib.ZLIB_RUNTIME_VERSION} at its default level: "
          "as they are and stored by store_rows\n")
    print("| picture | before | after | after over before |\n|---|---|---|---|")
    for row in packed:
        print_row(*row)
    print_row("all", sum(before for _, before, _ in packed), sum(after for _, _, after in packed))
    shrunk = sum(after < before for _, before, after in packed)
    grown = sum(after > before for _, before, after in packed)
    same = len(packed) - shrunk - grown
    print(f"\nStoring shrinks the packed bytes of {shrunk} of {len(packed)} pictures,"
          f" grows those of {grown} and leaves those of {same}.")
    print_lit_walls()


main()
