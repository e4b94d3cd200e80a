#!/usr/bin/env python3
"""The library from Python, by ctypes: a call on an image, as README's first C program makes it, and a program run to its end.

    make shared && python3 examples/first.py build/libmmix.so

Numbers are those of include/mmix.h. Each function that is called has its argument types and its result's written down: ctypes would take an int.
"""
import ctypes
import sys

IMAGE_LEN, STACK_START = 2336, 0x6000000000000000
AT_GENERAL, AT_SPECIAL, AT_PC, RO = 0, 2048, 2304, 10
TRAP, NEGUI, ADDUI, PUSHJ = 0x00, 0x37, 0x23, 0xF2
DONE, NAMED_TRAP = 0, 4

U8, U64, SIZE = ctypes.c_uint8, ctypes.c_uint64, ctypes.c_size_t
BYTES = ctypes.POINTER(U8)
WINDOWS = [BYTES, SIZE, BYTES, SIZE]


def load(path):
    lib = ctypes.CDLL(path)
    lib.mmix_initialize.argtypes = [BYTES, SIZE]
    lib.mmix_step.argtypes = [U64, U64, U8, U8, U8, U8, BYTES, SIZE] + WINDOWS
    lib.mmix_run.argtypes = [U64, U64, U64, BYTES, SIZE] + WINDOWS + [ctypes.POINTER(U64)]
    for function in (lib.mmix_initialize, lib.mmix_step, lib.mmix_run):
        function.restype = U64
    return lib


def octabyte(data, at):
    return int.from_bytes(bytes(data[at:at + 8]), "big")


def set_octabyte(data, at, value):
    data[at:at + 8] = value.to_bytes(8, "big")


def should(what, value, expected):
    if value != expected:
        sys.exit(f"first.py: {what}: {value:#x} where {expected:#x} should be")


def call(lib):
    """PUSHJ $1 on a fresh state, with the stack's window alone."""
    image, stack = (U8 * IMAGE_LEN)(), (U8 * 2048)()
    should("mmix_initialize", lib.mmix_initialize(image, len(image)), DONE)
    reply = lib.mmix_step(0, STACK_START, PUSHJ, 1, 0, 5, image, len(image), None, 0, stack, len(stack))
    should("PUSHJ", reply, DONE)
    print(f"PUSHJ $1: done, rO {octabyte(image, AT_SPECIAL + 8 * RO):x}")
    should("an image cut short", lib.mmix_step(0, STACK_START, PUSHJ, 1, 0, 5, image, len(image) - 1, None, 0, stack, len(stack)), 1)


def run(lib):
    """NEGU $0,40,0; ADDU $0,$0,2; TRAP 0,Halt,0 from a window A at 0x1000."""
    image, done = (U8 * IMAGE_LEN)(), U64()
    program = (U8 * 16)(NEGUI, 0, 40, 0, ADDUI, 0, 0, 2, TRAP, 0, 0, 0)
    should("mmix_initialize", lib.mmix_initialize(image, len(image)), DONE)
    set_octabyte(image, AT_PC, 0x1000)
    reply = lib.mmix_run(0x1000, STACK_START, 100, image, len(image), program, len(program), None, 0, ctypes.byref(done))
    should("a program's end", reply, NAMED_TRAP)
    should("instructions done", done.value, 2)
    should("PC", octabyte(image, AT_PC), 0x1008)
    should("$0", octabyte(image, AT_GENERAL), 42)


if len(sys.argv) != 2:
    sys.exit(__doc__)
library = load(sys.argv[1])
call(library)
run(library)
