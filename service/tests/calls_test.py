"""The lists of system calls, as the filter's own program decides, for two architectures.

The program that the kernel would run is run here, for calls by their numbers on each.
"""

import ctypes
import mmap
import os
import struct
import sys

from harness import Score, options

from wumpus.extract import calls  # isort: skip
from wumpus.extract.calls import Action, Rule  # isort: skip

X86, ARM = 0xC000003E, 0xC00000B7
EXECUTABLE = mmap.PROT_READ | mmap.PROT_EXEC
WRITABLE = mmap.PROT_READ | mmap.PROT_WRITE
NATIVE = 0

Arguments = tuple[int, ...]
ALLOW, KILL, NOT_PERMITTED, NOT_KNOWN = (
    Action.ALLOW, Action.KILL, Action.NOT_PERMITTED, Action.NOT_KNOWN,
)  # fmt: skip
# Name, arguments, and what is due in a filter that is code and in one that is a program.
DUE: list[tuple[str, Arguments, Action, Action]] = [
    ("read", (0,), ALLOW, ALLOW),
    ("write", (1,), ALLOW, ALLOW),
    ("mmap", (0, 4096, WRITABLE), ALLOW, ALLOW),
    ("mmap", (0, 4096, EXECUTABLE), KILL, ALLOW),
    ("mprotect", (0, 4096, EXECUTABLE), KILL, ALLOW),
    ("mprotect", (0, 4096, WRITABLE), ALLOW, ALLOW),
    ("brk", (), ALLOW, ALLOW),
    ("exit_group", (), ALLOW, ALLOW),
    ("openat", (), NOT_PERMITTED, ALLOW),
    ("newfstatat", (), NOT_PERMITTED, ALLOW),
    ("faccessat", (), NOT_PERMITTED, ALLOW),
    ("readlinkat", (), NOT_PERMITTED, ALLOW),
    ("ppoll", (), NOT_PERMITTED, ALLOW),
    ("unlinkat", (), NOT_PERMITTED, NOT_PERMITTED),
    ("fchmod", (), NOT_PERMITTED, NOT_PERMITTED),
    ("fchmodat", (), NOT_PERMITTED, NOT_PERMITTED),
    ("ioctl", (), NOT_PERMITTED, NOT_PERMITTED),
    ("execve", (), KILL, ALLOW),
    ("prlimit64", (0, 7, 0, 4096), NOT_PERMITTED, ALLOW),
    ("prlimit64", (0, 7, 4096, 0), NOT_PERMITTED, NOT_PERMITTED),
    ("prlimit64", (0, 7, 1 << 40, 0), NOT_PERMITTED, NOT_PERMITTED),
    ("clone3", (), NOT_KNOWN, NOT_KNOWN),
    *((name, (), KILL, KILL) for name in (
        "socket", "connect", "clone", "execveat", "kill", "ptrace", "mount", "unshare", "bpf",
        "io_uring_setup", "process_vm_readv", "memfd_create", "shmget", "add_key", "mq_open",
        "setns", "sendmsg", "recvmsg", "userfaultfd", "perf_event_open", "pidfd_getfd",
    )),
]  # fmt: skip


def program_for(rules: list[Rule], architecture: int) -> bytes:
    """The program for a machine of another architecture."""
    library = calls.library_here()
    context = calls.begin(library, Action.NOT_PERMITTED)
    native = library.seccomp_arch_native()
    if architecture != ctypes.c_uint32(native).value:
        assert library.seccomp_arch_add(context, ctypes.c_uint32(architecture)) == 0
        assert library.seccomp_arch_remove(context, ctypes.c_uint32(native)) == 0
    for rule in rules:
        calls.add(library, context, rule)
    descriptor = os.memfd_create("calls")
    assert library.seccomp_export_bpf(context, descriptor) == 0
    library.seccomp_release(context)
    return os.pread(descriptor, 1 << 20, 0)


def verdict(program: bytes, architecture: int, number: int, arguments: Arguments) -> int:
    """What the program says of a call."""
    six = (*arguments, *(0,) * (6 - len(arguments)))
    data = struct.pack("<IIQ6Q", number, architecture, 0, *six)
    place = accumulator = 0
    while True:
        code, yes, no, value = struct.unpack_from("<HBBI", program, place * 8)
        place += 1
        if code == 0x20:  # load a word
            (accumulator,) = struct.unpack_from("<I", data, value)
        elif code == 0x54:  # and
            accumulator &= value
        elif code == 0x05:  # jump
            place += value
        elif code == 0x06:  # return
            return int(value)
        else:
            holds = {
                0x15: accumulator == value,
                0x25: accumulator > value,
                0x35: accumulator >= value,
                0x45: bool(accumulator & value),
            }[code]
            place += yes if holds else no


def number_of(name: str, architecture: int) -> int:
    """The number of a call there."""
    library = ctypes.CDLL(calls.LIBRARY)
    name_there = ctypes.c_char_p(name.encode())
    return int(
        library.seccomp_syscall_resolve_name_arch(ctypes.c_uint32(architecture), name_there)
    )


def main() -> int:
    """Runs the test."""
    options(__doc__ or "").parse_args()
    score = Score("calls")
    for architecture, other in ((X86, ARM), (ARM, X86)):
        code = program_for(calls.rules_of_code(), architecture)
        program = program_for(calls.rules_of_programs(), architecture)
        for name, arguments, by_code, by_program in DUE:
            number = number_of(name, architecture)
            told = [verdict(one, architecture, number, arguments) for one in (code, program)]
            score.check(told == [by_code, by_program], f"{architecture:x} {name}: {told}")
            foreign = verdict(code, other, number, arguments)
            score.check(foreign == KILL, f"{name} by the numbers of another: {foreign:x}")
        score.check(verdict(code, architecture, 5000, ()) == NOT_PERMITTED, "a call of tomorrow")
    x32 = verdict(program_for(calls.rules_of_code(), X86), X86, 0x40000000, ())
    score.check(x32 == KILL, f"a call of x32: {x32:x}")
    return score.end()


if __name__ == "__main__":
    sys.exit(main())
