"""Watches a program at each call of the system that it makes: by ptrace, on Linux and x86-64."""
import contextlib
import ctypes
import os
import signal
import subprocess
import sys

# Of ptrace: requests, what is watched, and the stop at a call of the system.
TRACEME, POKE_USER, SYSCALL, SETOPTIONS, GET_SYSCALL_INFO = 0, 6, 24, 0x4200, 0x420E
OPTIONS = 0x1 | 0x8 | 0x100000  # stops are marked, threads are watched too, and the program ends with its watcher
AT_CALL = signal.SIGTRAP | 0x80
ENTRY, EXIT = 1, 2
WALL = 0x40000000
# Where the registers stand of a call's result, its third argument and its number.
RESULT, THIRD, NUMBER = 10 * 8, 12 * 8, 15 * 8

# How many bytes a path has at most.
LONGEST_PATH = 4096

REFUSED = "the system lets no program be watched"

libc = ctypes.CDLL(None, use_errno=True)
libc.ptrace.argtypes = [ctypes.c_long, ctypes.c_long, ctypes.c_void_p, ctypes.c_void_p]
libc.ptrace.restype = ctypes.c_long


class Refused(Exception):
    """The system lets no program be watched."""


class Gone(Exception):
    """A thread isn't stopped any more: it was killed."""


class Info(ctypes.Structure):
    """What the system tells of a call: `words` begins with its number and its arguments, or with its result."""

    _fields_ = [
        ("op", ctypes.c_uint8),
        ("pad", ctypes.c_uint8 * 3),
        ("arch", ctypes.c_uint32),
        ("place", ctypes.c_uint64),
        ("stack", ctypes.c_uint64),
        ("words", ctypes.c_int64 * 8),
    ]


def begin(words, **streams):
    """Starts a program, watched, and stopped before its first step."""
    process = subprocess.Popen(words, preexec_fn=lambda: libc.ptrace(TRACEME, 0, None, None), **streams)
    _, status = os.waitpid(process.pid, 0)
    if not os.WIFSTOPPED(status) or libc.ptrace(SETOPTIONS, process.pid, None, OPTIONS) < 0:
        process.kill()
        raise Refused
    return process


def begin_or_end(words):
    """Starts a program so. Where none may be watched, it says so on standard output, and ends with status 2."""
    try:
        return begin(words)
    except Refused:
        print(REFUSED, flush=True)
        sys.exit(2)


def follow(process, enters, leaves):
    """Lets a program go on from call to call until it has ended, and answers the status with which it ended, as
    `waitpid` has it. Each call's thread, number, first and third argument are told to `enters`, and its thread and
    result to `leaves`."""
    signal_number = 0
    thread = process.pid
    while True:
        libc.ptrace(SYSCALL, thread, None, signal_number)
        thread, status = os.waitpid(-1, WALL)
        signal_number = 0
        if os.WIFEXITED(status) or os.WIFSIGNALED(status):
            if thread == process.pid:
                process.returncode = os.waitstatus_to_exitcode(status)
                return process.returncode
            continue
        stopped = os.WSTOPSIG(status)
        if stopped == AT_CALL:
            look(thread, enters, leaves)
        elif stopped not in (signal.SIGTRAP, signal.SIGSTOP):
            signal_number = stopped


def info_of(thread):
    """Returns what the system tells of the call at which a thread has stopped. A thread that was killed meanwhile is
    told as Gone, here and where its memory is read."""
    info = Info()
    if libc.ptrace(GET_SYSCALL_INFO, thread, ctypes.sizeof(info), ctypes.addressof(info)) < 0:
        raise Gone(f"thread {thread} has stopped at no call")
    return info


def look(thread, enters, leaves):
    """Looks at the call at which a thread has stopped. One that was killed meanwhile makes no call any more, and has
    nothing to look at: what `enters` or `leaves` does of it ends there."""
    with contextlib.suppress(Gone):
        info = info_of(thread)
        if info.op == ENTRY:
            enters(thread, info.words[0], info.words[1], info.words[3])
        elif info.op == EXIT:
            leaves(thread, info.words[0])


def arguments(thread):
    """Returns the arguments of the call with which a thread begins."""
    return info_of(thread).words[1:7]


def bytes_at(thread, address, length):
    """Returns so many bytes of a thread's memory, or less at its end."""
    try:
        with open(f"/proc/{thread}/mem", "rb", buffering=0) as it:
            it.seek(address)
            taken = it.read(length)
        if length and not taken:
            raise OSError(f"thread {thread} has no memory at {address:#x}")
    except OSError:
        # Of a thread that was killed there is no such file, or nobody but root may open it, or nothing is in it. One
        # that is stopped still has its memory, and the fault is another.
        info_of(thread)
        raise
    return taken


def given(thread):
    """The bytes that the call is given with which a thread begins, a write or a send."""
    _, address, length, *_ = arguments(thread)
    return bytes_at(thread, address, length)


def text_at(thread, address):
    """Returns the text at an address up to its zero: a path."""
    return bytes_at(thread, address, LONGEST_PATH).split(b"\0")[0].decode()


def shorten(thread, length):
    """Has the call with which a thread begins, a read or a write, move so many bytes."""
    libc.ptrace(POKE_USER, thread, THIRD, length)


def withhold(thread):
    """Has the call with which a thread begins not be made; `answer` gives its result."""
    libc.ptrace(POKE_USER, thread, NUMBER, ctypes.c_void_p(-1))


def answer(thread, result):
    """Has the call that ends have this result: of one that fails, less than 0."""
    libc.ptrace(POKE_USER, thread, RESULT, ctypes.c_void_p(result))


def file_of(thread, number):
    """The name of the file that a thread has under a number, if any."""
    try:
        return os.readlink(f"/proc/{thread}/fd/{number}")
    except OSError:
        return None
