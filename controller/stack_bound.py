"""The deepest stack of a call for every input, from the frames of the compiled functions.

Frames have fixed sizes. No function calls one through a pointer, or itself but those with a known
number of activations (it stops where one does). So this is a bound and not a measurement. The
compiler tells the frames of our functions (.su); those of libgcc and the C library are read from
their code, so that the bound holds for the ones that are linked. Where two functions have one name
(both libraries hold the tree) the larger counts.
"""

import re
import subprocess
from collections import defaultdict

REGISTER_BYTES = 4

# How many frames at once a function has that calls itself. put_number has one for each decimal digit
# of its number of 32 bits: each calls the next with a tenth of it, until that is below 10.
MOST_ACTIVATIONS = {"text::put_number": 10}


class Code:
    """What the instructions of an image tell of each function."""

    def __init__(self):
        self.functions = set()
        self.calls = defaultdict(set)   # what it calls or jumps to
        self.pushed = defaultdict(int)  # bytes
        self.unclear = set()            # the stack moves by a register's content
        self.indirect = set()           # calls or jumps to an address in a register


def read_frames(paths):
    """The bytes of each function's frame, as the compiler tells them."""
    frames = {}
    for path in paths:
        with open(path) as file:
            for line in file:
                place, size, kind = line.rstrip("\n").split("\t")
                assert kind == "static", line
                function = place.split(":", 1)[1]
                frames[function] = max(frames.get(function, 0), int(size))
    return frames


def registers(operands):
    """How many registers a list such as {r4, r5-r7, lr} has."""
    count = 0
    for part in operands.strip("{}").split(","):
        ends = re.findall(r"\d+", part) if "-" in part else []
        count += int(ends[1]) - int(ends[0]) + 1 if ends else 1
    return count


def read_instruction(code, name, operation, operands):
    """Adds what an instruction tells of its function."""
    to = re.search(r"<([^+>]*)(\+0x[0-9a-f]+)?>$", operands)
    if to and operation.startswith("b"):
        # inside a function bl is a far jump, unless it goes to the function's beginning
        if to.group(1) != name or operation == "bl" and not to.group(2):
            code.calls[name].add(to.group(1))
    elif operation in ("bx", "blx") and operands != "lr" or operands.startswith("pc,"):
        code.indirect.add(name)
    elif operation == "push":
        code.pushed[name] += REGISTER_BYTES * registers(operands)
    elif operation == "sub" and operands.startswith("sp"):
        code.pushed[name] += int(re.search(r"#(\d+)", operands).group(1))
    elif re.match(r"(add|mov) sp, r", operation + " " + operands):
        code.unclear.add(name)


def read_code(image):
    """What the image's instructions tell."""
    code, name = Code(), None
    listing = subprocess.run(["arm-none-eabi-objdump", "-d", "--no-show-raw-insn", image],
                             capture_output=True, text=True, check=True).stdout
    for line in listing.splitlines():
        head = re.match(r"[0-9a-f]+ <(.*)>:$", line)
        instruction = re.match(r"\s+[0-9a-f]+:\s+(\S+)\s*(.*)", line)
        if head:
            name = head.group(1)
            code.functions.add(name)
        elif instruction and name:
            read_instruction(code, name, *instruction.groups())
    return code


def activations(name, code):
    """How many frames of a function may be on the stack at once."""
    if name not in code.calls[name]:
        return 1
    assert name in MOST_ACTIVATIONS, ("calls itself", name)
    return MOST_ACTIVATIONS[name]


def deepest(name, frames, code, above=()):
    """The bytes of stack of a function, and the chain of calls that takes them."""
    assert name in code.functions, ("no such function", name)
    assert name not in above, ("recursive", above)
    assert name not in code.indirect, ("calls through a pointer", name)
    assert name in frames or name not in code.unclear, ("a frame that is not known", name)
    below = [deepest(callee, frames, code, above + (name,))
             for callee in sorted(code.calls[name] - {name})]
    size, chain = max(below, key=lambda found: found[0], default=(0, ()))
    own, times = frames.get(name, code.pushed[name]), activations(name, code)
    shown = "%s %d" % (name, own) if times == 1 else "%s %d times %d" % (name, times, own)
    return times * own + size, (shown,) + chain


def bounds(image, paths, names):
    """For each function the bytes of its stack, and the chain of calls."""
    frames, code = read_frames(paths), read_code(image)
    assert all(name in frames for name in names), names
    return {name: deepest(name, frames, code) for name in names}
