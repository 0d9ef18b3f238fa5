"""What a worker that was taken over may try, and which wall holds it by itself."""

import ctypes
import mmap
import os
import platform
import resource
import signal
import socket
import subprocess
import threading
import time
from collections.abc import Callable
from contextlib import suppress
from dataclasses import dataclass, field
from pathlib import Path

SECRET = b"a secret\n"
_libc = ctypes.CDLL(None, use_errno=True)
_libc.syscall.restype = ctypes.c_long
_KEEPS_NO_NEW_PRIVILEGES = 39  # PR_GET_NO_NEW_PRIVS
_ANYBODY_MAY_TRACE = 0x59616D61  # PR_SET_PTRACER
_USER_KEYS = -4
_REMOVE = 0  # IPC_RMID
_X32 = 0x40000000
_SEIZE = 0x4206
_SET_PARENT_DEATH = 1


@dataclass
class Place:
    """What there is to be reached: files, a process of the same user, sockets."""

    folder: Path
    user: int
    victim: int = 0
    address: int = 0  # of the secret in the victim's memory
    inherited: int = -1
    sockets: list[socket.socket] = field(default_factory=list)
    port: int = 0

    @classmethod
    def made(cls, folder: Path, user: int) -> "Place":
        """Makes it, as root. All of it may be reached by the user."""
        place = cls(folder, user)
        (folder / "open").write_bytes(SECRET)
        (folder / "drop").mkdir()
        (folder / "drop").chmod(0o777)
        (folder / "own").write_bytes(SECRET)
        os.chown(folder / "own", user, user)
        place.inherited = os.open(folder / "open", os.O_RDONLY)
        place._listen()
        place._begin_victim()
        return place

    def _listen(self) -> None:
        places: list[tuple[int, str | tuple[str, int]]] = [
            (socket.AF_INET, ("127.0.0.1", 0)),
            (socket.AF_UNIX, str(self.folder / "socket")),
            (socket.AF_UNIX, self.abstract),
        ]
        for family, address in places:
            one = socket.socket(family, socket.SOCK_STREAM)
            one.bind(address)
            one.listen(100)
            self.sockets.append(one)
        (self.folder / "socket").chmod(0o777)
        self.port = self.sockets[0].getsockname()[1]

    @property
    def abstract(self) -> str:
        """The name of an abstract socket."""
        return f"\0{self.folder}"

    def _begin_victim(self) -> None:
        buffer = ctypes.create_string_buffer(SECRET)
        self.address = ctypes.addressof(buffer)
        self.victim = os.fork()
        if self.victim == 0:
            become(self.user)
            _libc.prctl(_ANYBODY_MAY_TRACE, ctypes.c_ulong(-1), 0, 0, 0)
            _libc.prctl(_SET_PARENT_DEATH, signal.SIGKILL, 0, 0, 0)
            while True:
                signal.pause()
        time.sleep(0.1)

    def close(self) -> None:
        """Ends the victim."""
        os.kill(self.victim, signal.SIGKILL)
        os.waitpid(self.victim, 0)
        os.close(self.inherited)
        for one in self.sockets:
            one.close()


def become(user: int) -> None:
    """Takes on a user's id, for ever, as a process that others of the user may trace."""
    os.setgroups([])
    os.setresgid(user, user, user)
    os.setresuid(user, user, user)
    _libc.prctl(4, 1, 0, 0, 0)  # PR_SET_DUMPABLE


def call(name: str, *arguments: int | bytes | None) -> int:
    """Makes a call by its name. Raises `OSError`."""
    library = ctypes.CDLL("libseccomp.so.2")
    number = library.seccomp_syscall_resolve_name(name.encode())
    wide = [ctypes.c_long(one) if isinstance(one, int) else one for one in arguments]
    result = int(_libc.syscall(ctypes.c_long(number), *wide))
    if result < 0:
        error = ctypes.get_errno()
        raise OSError(error, os.strerror(error))
    return result


def read_file(place: Place) -> bool:
    return (place.folder / "open").read_bytes() == SECRET


def list_folder(place: Place) -> bool:
    return "open" in os.listdir(place.folder)


def see_name(place: Place) -> bool:
    return os.stat(place.folder / "open").st_size == len(SECRET)


def write_file(place: Place) -> bool:
    path = place.folder / "drop" / "file"
    path.write_bytes(SECRET)
    path.unlink()
    return True


def make_folder(place: Place) -> bool:
    path = place.folder / "drop" / "folder"
    path.mkdir()
    path.rmdir()
    return True


def make_link(place: Place) -> bool:
    path = place.folder / "drop" / "link"
    path.symlink_to("open")
    path.unlink()
    return True


def change_mode(place: Place) -> bool:
    os.chmod(place.folder / "own", 0o600)
    return True


def change_times(place: Place) -> bool:
    os.utime(place.folder / "own", (1, 1))
    return True


def watch_file(place: Place) -> bool:
    return call("inotify_add_watch", call("inotify_init1", 0), bytes(place.folder / "own"), 2) > 0


def connect_tcp(place: Place) -> bool:
    with socket.socket(socket.AF_INET, socket.SOCK_STREAM) as one:
        one.connect(("127.0.0.1", place.port))
    return True


def send_udp(place: Place) -> bool:
    with socket.socket(socket.AF_INET, socket.SOCK_DGRAM) as sender:
        return sender.sendto(SECRET, ("127.0.0.1", place.port)) > 0


def connect_unix(place: Place) -> bool:
    with socket.socket(socket.AF_UNIX, socket.SOCK_STREAM) as one:
        one.connect(str(place.folder / "socket"))
    return True


def connect_abstract(place: Place) -> bool:
    with socket.socket(socket.AF_UNIX, socket.SOCK_STREAM) as one:
        one.connect(place.abstract)
    return True


def fork(_: Place) -> bool:
    child = os.fork()
    if child == 0:
        os._exit(0)
    os.waitpid(child, 0)
    return True


def begin_thread(_: Place) -> bool:
    thread = threading.Thread(target=lambda: None)
    thread.start()
    thread.join()
    return True


def execute(_: Place) -> bool:
    os.execv("/bin/echo", ["echo", "-n", "x"])


def execute_document(_: Place) -> bool:
    os.execv("/proc/self/fd/0", ["echo", "-n", "x"])


def write_document(_: Place) -> bool:
    return os.pwrite(0, b"x", 0) == 1


def cut_document(_: Place) -> bool:
    os.ftruncate(0, 0)
    return True


def send_signal(place: Place) -> bool:
    os.kill(place.victim, 0)
    return True


def trace(place: Place) -> bool:
    return call("ptrace", _SEIZE, place.victim, 0, 0) == 0


def read_memory(place: Place) -> bool:
    room = ctypes.create_string_buffer(len(SECRET))
    here = (ctypes.c_size_t * 2)(ctypes.addressof(room), len(SECRET))
    there = (ctypes.c_size_t * 2)(place.address, len(SECRET))
    arguments = (ctypes.addressof(here), 1, ctypes.addressof(there), 1, 0)
    return call("process_vm_readv", place.victim, *arguments) > 0 and room.raw == SECRET


def read_memory_file(place: Place) -> bool:
    with open(f"/proc/{place.victim}/mem", "rb", buffering=0) as memory:
        return os.pread(memory.fileno(), len(SECRET), place.address) == SECRET


def limit_other(place: Place) -> bool:
    resource.prlimit(place.victim, resource.RLIMIT_CORE, (0, 0))
    return True


def slow_other(place: Place) -> bool:
    os.setpriority(os.PRIO_PROCESS, place.victim, os.getpriority(os.PRIO_PROCESS, place.victim) + 1)
    return True


def share_memory(_: Place) -> bool:
    number = call("shmget", 0, 4096, 0o1600)
    call("shmctl", number, _REMOVE, 0)
    return True


def make_queue(_: Place) -> bool:
    number = call("msgget", 0, 0o1600)
    call("msgctl", number, _REMOVE, 0)
    return True


def make_posix_queue(_: Place) -> bool:
    name = b"wumpus-deed"
    call("mq_open", name, os.O_CREAT | os.O_RDWR, 0o600, 0)
    call("mq_unlink", name)
    return True


def keep_key(_: Place) -> bool:
    return call("add_key", b"user", b"wumpus-deed", SECRET, len(SECRET), _USER_KEYS) > 0


def make_memory_file(_: Place) -> bool:
    return os.memfd_create("deed") > 0


def make_namespace(_: Place) -> bool:
    return call("unshare", 0x10000000) == 0


def make_ring(_: Place) -> bool:
    return call("io_uring_setup", 1, b"\0" * 120) > 0


def handle_faults(_: Place) -> bool:
    return call("userfaultfd", 1) > 0


def read_inherited(place: Place) -> bool:
    return os.pread(place.inherited, len(SECRET), 0) == SECRET


def take_memory(_: Place) -> bool:
    return len(bytearray(1 << 30)) > 0


def take_time(_: Place) -> bool:
    while time.process_time() < 3:
        pass
    return True


def take_descriptors(_: Place) -> bool:
    return len([os.dup(0) for _ in range(100)]) == 100


def lock_memory(_: Place) -> bool:
    room = mmap.mmap(-1, 4096)
    there = ctypes.addressof(ctypes.c_char.from_buffer(room))
    return call("mlock", there, 4096) == 0


def execute_memory(_: Place) -> bool:
    return len(mmap.mmap(-1, 4096, prot=mmap.PROT_READ | mmap.PROT_EXEC)) > 0


def call_by_other_numbers(_: Place) -> bool:
    """Whatever it returns, the process went on."""
    with suppress(OSError):
        _libc.syscall(ctypes.c_long(_X32 | 39))
    return True


def may_dump_core(_: Place) -> bool:
    return resource.getrlimit(resource.RLIMIT_CORE)[1] != 0


def may_get_privileges(_: Place) -> bool:
    return int(_libc.prctl(_KEEPS_NO_NEW_PRIVILEGES, 0, 0, 0, 0)) == 0


LANDLOCK, SECCOMP, LIMITS = "Landlock", "seccomp", "limits"
DESCRIPTORS, DOCUMENT = "descriptors", "the sealed document"
WALLS = (LANDLOCK, SECCOMP, LIMITS, DESCRIPTORS, DOCUMENT)


@dataclass(frozen=True)
class Deed:
    """A deed, the walls each of which holds it alone, and what a program may do all the same."""

    do: Callable[[Place], bool]
    held_by: tuple[str, ...]
    by_program: bool = False

    @property
    def what(self) -> str:
        """Its name."""
        return self.do.__name__.replace("_", " ")


DEEDS = [
    Deed(read_file, (LANDLOCK, SECCOMP)),
    Deed(list_folder, (LANDLOCK, SECCOMP)),
    Deed(see_name, (SECCOMP,), by_program=True),  # there the unit's empty root holds
    Deed(write_file, (LANDLOCK, SECCOMP, LIMITS)),
    Deed(make_folder, (LANDLOCK, SECCOMP)),
    Deed(make_link, (LANDLOCK, SECCOMP)),
    Deed(change_mode, (SECCOMP,)),
    Deed(change_times, (SECCOMP,)),
    Deed(watch_file, (SECCOMP,)),
    Deed(connect_tcp, (LANDLOCK, SECCOMP)),
    Deed(send_udp, (SECCOMP,)),
    Deed(connect_unix, (SECCOMP,)),
    Deed(connect_abstract, (LANDLOCK, SECCOMP)),
    Deed(fork, (SECCOMP, LIMITS)),
    Deed(begin_thread, (SECCOMP, LIMITS)),
    Deed(execute, (LANDLOCK, SECCOMP)),
    Deed(execute_document, (SECCOMP, DOCUMENT)),
    Deed(write_document, (DOCUMENT, LIMITS)),
    Deed(cut_document, (DOCUMENT, SECCOMP)),
    Deed(send_signal, (LANDLOCK, SECCOMP)),
    Deed(trace, (LANDLOCK, SECCOMP)),
    Deed(read_memory, (LANDLOCK, SECCOMP)),
    Deed(read_memory_file, (LANDLOCK, SECCOMP)),
    Deed(limit_other, (SECCOMP,)),
    Deed(slow_other, (SECCOMP,)),
    Deed(share_memory, (SECCOMP,)),
    Deed(make_queue, (SECCOMP,)),
    Deed(make_posix_queue, (SECCOMP, LIMITS)),
    Deed(keep_key, (SECCOMP,)),
    Deed(make_memory_file, (SECCOMP,)),
    Deed(make_namespace, (SECCOMP,)),
    Deed(make_ring, (SECCOMP,)),
    Deed(handle_faults, (SECCOMP,)),
    Deed(read_inherited, (DESCRIPTORS,)),
    Deed(take_memory, (LIMITS,)),
    Deed(take_time, (LIMITS,)),
    Deed(take_descriptors, (SECCOMP, LIMITS)),
    Deed(lock_memory, (SECCOMP, LIMITS)),
    Deed(execute_memory, (SECCOMP,), by_program=True),  # as its loader does
    Deed(may_dump_core, (LIMITS,)),
    Deed(may_get_privileges, (LANDLOCK,)),
]
if platform.machine() == "x86_64":
    DEEDS.append(Deed(call_by_other_numbers, (SECCOMP,)))


def echo() -> bytes:
    """A document that is a program, which says `x`."""
    return Path("/bin/echo").read_bytes()


def leftovers() -> bytes:
    """What the kernel keeps of queues and shared memory, beyond the ends of processes."""
    return subprocess.run(["ipcs"], capture_output=True).stdout
