"""What the headers in include/ say of each call: result, parameters and refusals."""

import re

HEADERS = ("include/board_controller.h", "include/board.h")


def texts():
    """The headers' texts."""
    for path in HEADERS:
        with open(path) as file:
            yield file.read()


def functions():
    """The bits of each call's result, and its parameters as they are written."""
    found = {}
    for text in texts():
        for bits, name, inside in re.findall(r"^uint(\d+)_t (\w+)\(([^)]*)\);", text, re.M):
            found[name] = bits, [" ".join(part.split()) for part in inside.split(",")]
    return found


def refusals():
    """Each call's refusals, in their order. What stands in parentheses says when one comes."""
    found = {}
    order = r"Refusals, in this order: ([^/]*)\*/\s*uint\d+_t (\w+)\("
    for text in texts():
        for numbers, name in re.findall(order, text):
            found[name] = [int(n) for n in re.findall(r"\d+", re.sub(r"\([^)]*\)", "", numbers))]
    return found
