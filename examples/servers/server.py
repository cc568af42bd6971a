"""A server of one child alone: in a new folder, on a port of 127.0.0.1 that nobody else gets, and ended with its child.

Needs Linux, for /proc and for what `prctl` sets.
"""
import ctypes
import os
import select
import shutil
import signal
import socket
import subprocess
import sys
import tempfile

HOST = "127.0.0.1"
SET_DEATH_SIGNAL, SET_CHILD_SUBREAPER = 1, 36
# A flag of a process that has begun to end.
EXITING = 4


class Server:
    """A server that ends with this process, also where that is killed, and its folder goes with it.

    `command(folder, port)` answers the words that start it in the foreground, and may write files into the folder. The port is
    held by a socket that is bound and never listens: the system gives it to nobody, and the server may bind it all the same,
    since it sets SO_REUSEADDR, as servers do.
    """

    def __init__(self, command):
        self.hold = socket.socket()
        self.hold.setsockopt(socket.SOL_SOCKET, socket.SO_REUSEADDR, 1)
        self.hold.bind((HOST, 0))
        self.port = self.hold.getsockname()[1]
        # Of two pipes the other ends tell: `lives` ends with this process, whatever ends it, and `ended` with the guard.
        lives, self.life = os.pipe()
        self.ended, ends = os.pipe()
        self.process = None
        self.guard = os.fork()
        if self.guard == 0:
            os._exit(guard(command, self.port, lives, ends))
        os.close(lives)
        os.close(ends)

    def __enter__(self):
        return self

    def __exit__(self, *_):
        """Returns when nothing of the server is left."""
        os.close(self.life)
        os.waitpid(self.guard, 0)

    def has_ended(self, seconds):
        """Whether it has ended, or does so within this time."""
        return bool(select.select([self.ended], [], [], seconds)[0])

    def lives(self):
        """Whether the process that was started as the server is there, and not on its way out. Its first call is while it lives."""
        try:
            if self.process is None:
                self.process = children_of(self.guard)[0]
            # Behind the name, which may have blanks, the seventh word has the flags.
            flags = int(look(f"/proc/{self.process}/stat").rpartition(b")")[2].split()[6])
            return not flags & EXITING
        except (IndexError, FileNotFoundError, ProcessLookupError):
            return False

    def threads(self):
        """Each thread of the server and of the processes that it started: its state, how often it was switched, and its children."""
        found, todo = {}, children_of(self.guard)
        for process in todo:
            try:
                for thread in os.listdir(f"/proc/{process}/task"):
                    task = f"/proc/{process}/task/{thread}"
                    status = look(f"{task}/status")
                    state = status[status.index(b"State:"):].split(None, 2)[1]
                    children = look(f"{task}/children")
                    found[task] = state, status[status.index(b"voluntary_ctxt_switches"):], children
                    todo += map(int, children.split())
            except (FileNotFoundError, ProcessLookupError):
                found[process] = b"gone", b"", b""
        return found


def children_of(process):
    """The processes that a process of one thread has started."""
    return [int(child) for child in look(f"/proc/{process}/task/{process}/children").split()]


def look(path):
    """What a file of /proc says."""
    number = os.open(path, os.O_RDONLY | os.O_CLOEXEC)
    try:
        return os.read(number, 65536)
    finally:
        os.close(number)


def guard(command, port, lives, ends):
    """The life of the process between a child and its server: it starts the server, waits until the child has ended, and then
    ends all that came of the server. It has a session of its own, so no key of the terminal reaches it, and what the server's
    processes leave behind becomes its child."""
    os.setsid()
    prctl(SET_CHILD_SUBREAPER, 1)
    for number in map(int, os.listdir("/proc/self/fd")):
        if number > 2 and number not in (lives, ends):
            close(number)
    nothing = os.open(os.devnull, os.O_RDWR)
    os.dup2(nothing, 0)
    os.dup2(nothing, 1)
    folder = tempfile.mkdtemp(prefix="nofjand-")
    try:
        return watch(command(folder, port), folder, lives)
    except Exception as reason:
        # Nothing may leave by its caller's way: this process is a copy of the child.
        print(f"the server can't be started: {reason}", file=sys.stderr, flush=True)
        return 1
    finally:
        end_children()
        shutil.rmtree(folder, ignore_errors=True)


def watch(words, folder, lives):
    """Starts the server, and waits until the child or the server has ended. Of other processes that end nothing is kept."""
    heard, hear = os.pipe()
    os.set_blocking(hear, False)
    signal.set_wakeup_fd(hear)
    for kind in (signal.SIGCHLD, signal.SIGTERM):
        signal.signal(kind, lambda *_: None)
    log = os.path.join(folder, "log")
    with open(log, "wb") as said:
        # Its input is a pipe that nobody writes to, since some servers end where their input does.
        server = subprocess.Popen(words, cwd=folder, stdin=subprocess.PIPE, stdout=said, stderr=said,
                                  preexec_fn=lambda: prctl(SET_DEATH_SIGNAL, signal.SIGKILL))
    while lives not in select.select([lives, heard], [], [])[0]:
        os.read(heard, 4096)
        child = None
        while child != 0:
            child, status = os.waitpid(-1, os.WNOHANG)
            if child == server.pid:
                with open(log, errors="replace") as said:
                    print(f"the server ended with status {status}\n{said.read()}", file=sys.stderr, flush=True)
                return 1
    return 0


def end_children():
    """Ends each child of this process, and each that becomes one when its parent has ended."""
    while True:
        for child in children_of(os.getpid()):
            os.kill(child, signal.SIGKILL)
        try:
            os.waitpid(-1, 0)
        except ChildProcessError:
            return


def prctl(option, value):
    """A setting of the calling process that the standard library has no call for."""
    ctypes.CDLL(None).prctl(option, value, 0, 0, 0)


def close(number):
    try:
        os.close(number)
    except OSError:
        pass
