"""Which calls of the kernel a worker may make, as programs for its filter.

They are made by libseccomp, which knows the numbers of each architecture, and refuses the calls of
another one. A worker itself needs nothing of that library: it gives the kernel a finished program.

What a list doesn't name is answered with EPERM, so that a C library that tries a new call goes on.
What no filter of documents asks for ends the worker: it was taken over.
"""

import ctypes
import errno
import mmap
import os
from dataclasses import dataclass
from enum import IntEnum

LIBRARY = "libseccomp.so.2"
_OTHER_ARCHITECTURE = 2  # SCMP_FLTATR_ACT_BADARCH
_ERRNO = 0x00050000
_REGISTER = (1 << 64) - 1


class Action(IntEnum):
    """What the kernel does at a call."""

    KILL = 0x80000000
    ALLOW = 0x7FFF0000
    NOT_PERMITTED = _ERRNO | errno.EPERM
    NOT_KNOWN = _ERRNO | errno.ENOSYS


class _Comparison(ctypes.Structure):
    _fields_ = [
        ("argument", ctypes.c_uint),
        ("operator", ctypes.c_int),
        ("first", ctypes.c_uint64),
        ("second", ctypes.c_uint64),
    ]


_MASKED_EQUAL = 7


@dataclass(frozen=True)
class Rule:
    """An action for a call, if bits of one of its arguments are as wanted."""

    call: str
    action: Action
    argument: int = 0
    mask: int = 0
    wanted: int = 0


MEMORY = "munmap mremap brk madvise"
TIME = "clock_gettime clock_getres clock_nanosleep gettimeofday time nanosleep"
SIGNALS = "rt_sigaction rt_sigprocmask rt_sigreturn sigaltstack restart_syscall"
ENDS = "exit exit_group"
SELF = "futex getrandom sched_yield getpid gettid"

# A filter that is code: all is loaded, and the document is open.
CODE = f"read pread64 lseek write close {MEMORY} {TIME} {SIGNALS} {ENDS} {SELF}"

# A filter that is a program: its loader opens libraries, and Landlock says which.
PROGRAM = (
    f"{CODE} readv writev pwrite64 execve openat open mprotect fcntl fadvise64 dup"
    " fstat newfstatat stat lstat statx access faccessat faccessat2 readlink readlinkat"
    " getcwd uname sysinfo arch_prctl set_tid_address set_robust_list get_robust_list rseq"
    " getuid geteuid getgid getegid getppid getrlimit getrusage poll ppoll sched_getaffinity"
)

# No filter of documents asks for these.
HOSTILE = (
    "socket socketpair connect accept accept4 bind listen sendto sendmsg sendmmsg"
    " recvfrom recvmsg recvmmsg"
    " fork vfork clone execveat unshare setns"
    " kill tkill rt_sigqueueinfo rt_tgsigqueueinfo pidfd_open pidfd_getfd pidfd_send_signal"
    " ptrace process_vm_readv process_vm_writev process_madvise kcmp"
    " mount umount umount2 move_mount open_tree fsopen fsconfig fsmount fspick mount_setattr"
    " pivot_root chroot swapon swapoff quotactl"
    " bpf perf_event_open userfaultfd io_uring_setup io_uring_enter io_uring_register"
    " io_setup io_submit"
    " keyctl add_key request_key"
    " shmget shmat msgget msgsnd msgrcv semget semop mq_open memfd_create memfd_secret"
    " name_to_handle_at open_by_handle_at fanotify_init"
    " init_module finit_module delete_module kexec_load kexec_file_load reboot"
    " setuid setgid setreuid setregid setresuid setresgid setgroups setfsuid setfsgid capset"
    " personality modify_ldt iopl ioperm"
)

_EXECUTABLE = mmap.PROT_EXEC
_MAPS = 2  # the argument of mmap and mprotect that says what the memory may be used for
_NEW_LIMIT = 2  # the argument of prlimit64 that has the limit to be set


def rules_of_code() -> list[Rule]:
    """The rules for a filter that is code: no new file and nothing to execute."""
    rules = [Rule(call, Action.ALLOW) for call in CODE.split()]
    for call in ("mmap", "mprotect"):
        rules += [
            Rule(call, Action.ALLOW, _MAPS, _EXECUTABLE, 0),
            Rule(call, Action.KILL, _MAPS, _EXECUTABLE, _EXECUTABLE),
        ]
    return [*rules, Rule("execve", Action.KILL), *_rules_of_all()]


def rules_of_programs() -> list[Rule]:
    """The rules for a filter that is a program."""
    rules = [Rule(call, Action.ALLOW) for call in [*PROGRAM.split(), "mmap"]]
    only_asked = Rule("prlimit64", Action.ALLOW, _NEW_LIMIT, _REGISTER, 0)
    return [*rules, only_asked, *_rules_of_all()]


def _rules_of_all() -> list[Rule]:
    """The rules for both."""
    return [Rule(call, Action.KILL) for call in HOSTILE.split()] + [
        Rule("clone3", Action.NOT_KNOWN)
    ]


class Missing(Exception):
    """The library isn't there, or can't make a filter."""


def library_here() -> ctypes.CDLL:
    """The library. Raises `Missing`."""
    try:
        library = ctypes.CDLL(LIBRARY, use_errno=True)
    except OSError as error:
        raise Missing(f"seccomp: {error}") from error
    library.seccomp_init.restype = ctypes.c_void_p
    library.seccomp_init.argtypes = [ctypes.c_uint32]
    library.seccomp_release.argtypes = [ctypes.c_void_p]
    library.seccomp_attr_set.argtypes = [ctypes.c_void_p, ctypes.c_int, ctypes.c_uint32]
    library.seccomp_rule_add_array.argtypes = [
        ctypes.c_void_p, ctypes.c_uint32, ctypes.c_int, ctypes.c_uint, ctypes.c_void_p,
    ]  # fmt: skip
    library.seccomp_export_bpf.argtypes = [ctypes.c_void_p, ctypes.c_int]
    return library


def begin(library: ctypes.CDLL, otherwise: Action) -> ctypes.c_void_p:
    """A list of rules, with what is done at all other calls. Raises `Missing`."""
    context = ctypes.c_void_p(library.seccomp_init(otherwise))
    if not context or library.seccomp_attr_set(context, _OTHER_ARCHITECTURE, Action.KILL) != 0:
        raise Missing("seccomp: no list can be begun")
    return context


def add(library: ctypes.CDLL, context: ctypes.c_void_p, rule: Rule) -> None:
    """Adds a rule, where this architecture has the call."""
    number = library.seccomp_syscall_resolve_name(rule.call.encode())
    if number < 0:
        return
    count = 1 if rule.mask else 0
    test = _Comparison(rule.argument, _MASKED_EQUAL, rule.mask, rule.wanted)
    status = library.seccomp_rule_add_array(
        context, rule.action, number, count, ctypes.byref(test)
    )
    if status != 0:
        raise Missing(f"seccomp: {rule.call}: {os.strerror(-status)}")


def program_of(rules: list[Rule], otherwise: Action) -> ctypes.Array[ctypes.c_char]:
    """The kernel's program, with what is done at all other calls. Raises `Missing`."""
    library = library_here()
    context = begin(library, otherwise)
    try:
        for rule in rules:
            add(library, context, rule)
        descriptor = os.memfd_create("calls", os.MFD_CLOEXEC)
        try:
            status = library.seccomp_export_bpf(context, descriptor)
            if status != 0:
                raise Missing(f"seccomp: {os.strerror(-status)}")
            size = os.lseek(descriptor, 0, os.SEEK_END)
            program = os.pread(descriptor, size, 0)
        finally:
            os.close(descriptor)
    finally:
        library.seccomp_release(context)
    return ctypes.create_string_buffer(program, len(program))


def for_code() -> ctypes.Array[ctypes.c_char]:
    """The kernel's filter for a filter of documents that is code. Raises `Missing`."""
    return program_of(rules_of_code(), Action.NOT_PERMITTED)


def for_programs() -> ctypes.Array[ctypes.c_char]:
    """The kernel's filter for one that is a program. Raises `Missing`."""
    return program_of(rules_of_programs(), Action.NOT_PERMITTED)
