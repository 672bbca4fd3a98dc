"""Makes a module of the kit's back end one for a Cortex-M0+: data layout, triple and attributes.

The module says nothing of x86-64 but these. Memory is bytes at fixed offsets (a slice is 16 bytes:
the pointer at 0, the length in 64 bits at 8), and no pointer is made from a number or a number from
a pointer. A 32-bit pointer fills half of its eight bytes. An index of 64 bits is cut to 32 where it
meets a pointer: it is proved to be below a length, and no length on the controller has more.

The exported functions take each usize (a slice's length is one) as C's 32-bit size_t. In the module
a u64 looks like a usize, so results and parameters are compared with those of the headers.

Usage: retarget.py MODULE.ll > CONTROLLER.ll
"""

import re
import sys

import headers

LAYOUT = "e-m:e-p:32:32-Fi8-i64:64-v128:64:128-a:0:32-n32-S64"
TRIPLE = "thumbv6m-unknown-none-eabi"
FOR_X86 = r' "(probe-stack|stack-probe-size|target-cpu)"="[^"]*"'
REFUSED = r"\b(ptrtoint|ptrtoaddr|inttoptr|addrspace|i128|asm)\b"
BYTES = r"getelementptr( inbounds| nuw| nusw)* i8, ptr"
EXPORTED = r"define (?!internal).*(i\d+) @(\w+)\((.*)\)"
TYPE_OF = {"size_t": "i64", "uint32_t": "i32", "uint16_t": "i16", "uint8_t": "i8"}


def type_in_module(parameter):
    """The module's type of a parameter in C, or none, as for uint64_t."""
    return "ptr" if "*" in parameter else TYPE_OF.get(parameter.split()[0])


def check_function(result, name, inside, declared):
    """Stops unless the module's result and parameters are those of the header."""
    assert name in declared, (name, "is in no header")
    bits, parameters = declared[name]
    types = [part.split()[0] for part in inside.split(", ")]
    expected = [type_in_module(parameter) for parameter in parameters]
    assert (result, types) == ("i" + bits, expected), (name, result, types, expected)


def check_body(line):
    """Stops at what would mean something else with 32-bit pointers."""
    assert not re.search(REFUSED, line), line
    assert "getelementptr" not in line or re.search(BYTES, line), line


def shorten(line, sizes):
    """The head of an exported function with 32-bit lengths; sizes gets their names."""
    sizes += re.findall(r"i64 noundef (%\w+)", line)
    line = re.sub(r"i64 noundef (%\w+)", r"i32 noundef \1.short", line)
    assert "i64" not in line[line.index("@"):], line
    return line


def retarget(lines, declared):
    """The lines for the controller."""
    sizes, exported = [], set()
    for line in lines:
        head = re.match(EXPORTED, line)
        if line.startswith(("  ", "@")):
            check_body(line)
        elif line.startswith("target datalayout"):
            line = 'target datalayout = "%s"' % LAYOUT
        elif line.startswith("target triple"):
            line = 'target triple = "%s"' % TRIPLE
        elif line.startswith("attributes "):
            line = re.sub(FOR_X86, "", line)
            assert "x86" not in line, line
        elif head:
            check_function(*head.groups(), declared)
            exported.add(head.group(2))
            line = shorten(line, sizes)
        yield line
        if line == "start:":
            yield from ("  %s = zext i32 %s.short to i64" % (size, size) for size in sizes)
            sizes.clear()
    assert exported and not sizes, (exported, sizes)


def main():
    with open(sys.argv[1]) as module:
        lines = module.read().splitlines()
    print("\n".join(retarget(lines, headers.functions())))


main()
