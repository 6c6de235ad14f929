"""singly.py COMMAND..: this command, in which each `pread` of several sectors fails with EIO, so that the program reads
each sector alone. Such a call counts as one that a trace sees, and its failure for no disk."""
import ctypes
import os
import struct
import sys

SECTOR = 512
EIO = 5
X86_64, NR_PREAD64 = 0xC000003E, 17
NO_NEW_PRIVS, SET_SECCOMP, MODE_FILTER = 38, 22, 2
ALLOW, ERRNO = 0x7FFF0000, 0x00050000
LOAD, AND, EQUAL, RETURN = 0x20, 0x54, 0x15, 0x06
NUMBER_AT, ARCH_AT, COUNT_AT = 0, 4, 16 + 2 * 8  # of the call that the kernel shows to a filter

# Each jump skips so many steps where it holds, and so many where not.
STEPS = [
    (LOAD, 0, 0, ARCH_AT),
    (EQUAL, 0, 7, X86_64),
    (LOAD, 0, 0, NUMBER_AT),
    (EQUAL, 0, 5, NR_PREAD64),
    (LOAD, 0, 0, COUNT_AT),
    (EQUAL, 3, 0, SECTOR),
    (AND, 0, 0, SECTOR - 1),
    (EQUAL, 0, 1, 0),
    (RETURN, 0, 0, ERRNO | EIO),
    (RETURN, 0, 0, ALLOW),
]


def fail_rows():
    steps = b"".join(struct.pack("HBBI", *step) for step in STEPS)
    held = ctypes.create_string_buffer(steps)
    program = struct.pack("HxxxxxxP", len(STEPS), ctypes.addressof(held))
    call = ctypes.CDLL(None, use_errno=True).prctl
    if call(NO_NEW_PRIVS, 1, 0, 0, 0) != 0 or call(SET_SECCOMP, MODE_FILTER, program, 0, 0) != 0:
        sys.exit(f"singly.py: {os.strerror(ctypes.get_errno())}")


fail_rows()
os.execvp(sys.argv[1], sys.argv[1:])
