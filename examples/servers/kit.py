"""What adapters of servers share: connections, and a server's silence without a wait. The learner's lines and the names of outputs
are those of `adapter.py` in the folder above.

    with Server(command) as server:
        kit.run(Adapter(server))

An adapter has two calls: `reset()`, which begins anew on a fresh `Connection`, and `step(letter)`, which answers an output's name.

Whether a server has said all that it will say is decided in one of two ways, and never by the clock. Where the protocol has a
ping, send it behind the letter, and take all that comes before its answer: `send`, then `read_until`. Else `answer` asks the
system: the server has read every byte that was sent, every byte that it sent is here, and all its threads sleep at one moment.
One that sleeps for a time in one of the usual calls is waited for until it has slept so once and said nothing; this is slow, and a
ping is better. Other clocks are not seen: a timer of its own (setitimer, timerfd), a limit that a socket has. A server that answers
later all the same is misread; what it says before the next letter or reset ends the adapter, since a wrong model is worse than none.

Needs Linux, for what it tells of threads and sockets.
"""
import functools
import os
import select
import socket
import struct
import sys

sys.path.insert(1, os.path.dirname(os.path.dirname(os.path.abspath(__file__))))
import adapter
from adapter import Stop
from server import HOST, look

# The number of this child among those of its learner: in names, it keeps the children of one server apart.
INSTANCE = os.environ.get("NOFJAND_INSTANCE", "0")
SHORTEST_REST, LONGEST_REST = 0.0001, 0.005
# System calls that may wait for a time, each with the place of the argument that limits it: poll, select, epoll_wait, epoll_pwait,
# ppoll, pselect6, futex, rt_sigtimedwait; and nanosleep, clock_nanosleep and rt_sigsuspend, which wait for nothing else.
ALWAYS = None
LIMITS = {
    "x86_64": {7: 2, 23: 4, 232: 3, 281: 3, 271: 2, 270: 4, 202: 3, 128: 2, 35: ALWAYS, 230: ALWAYS, 130: ALWAYS},
    "aarch64": {22: 3, 73: 2, 72: 4, 98: 3, 137: 2, 101: ALWAYS, 115: ALWAYS, 133: ALWAYS},
}
# The number of rt_sigsuspend on both.
SIGNALS = (130, 133)
NO_LIMIT = (0, 0xFFFFFFFF, 0xFFFFFFFFFFFFFFFF)


def run(system):
    """Answers the learner's lines until its input ends. Where it has to stop, it tells the letters since the last reset."""
    status = adapter.run(system)
    if status:
        sys.exit(status)


def name(parts):
    """The name of an output that has these parts, in their order."""
    return adapter.name("+".join(parts))


class Connection:
    """A new connection to a server. `closed` says that the server has closed it."""

    def __init__(self, server):
        """The first one waits until the server listens."""
        self.server, self.stream = server, connect(server)
        self.closed = False
        self.sent = self.received = 0
        self.stream.setsockopt(socket.IPPROTO_TCP, socket.TCP_NODELAY, 1)
        self.stream.setblocking(False)
        self.names = self.stream.getsockname(), self.stream.getpeername()
        self.expect_server()

    def send(self, data, is_last=False):
        """Sends all of it, but where the server closes, and its own end of the stream behind the last. What the server has said
        unasked ends the adapter."""
        self.expect_nothing()
        try:
            while data and not self.closed:
                select.select([], [self.stream], [])
                count = self.stream.send(data)
                self.sent += count
                data = data[count:]
            if is_last and not self.closed:
                self.stream.shutdown(socket.SHUT_WR)
                # The end counts as a byte that comes.
                self.sent += 1
        except (BrokenPipeError, ConnectionResetError):
            # What it said before it closed is still to be read.
            pass

    def read_until(self, is_whole):
        """What comes, until `is_whole` says of it that the ping's answer is there, or the server closes."""
        said = b""
        while not self.closed and not is_whole(said):
            expect_reader(None, self.stream)
            said += self.take()
        return said

    def answer(self, data=b"", is_last=False):
        """Sends, and answers all that the server says to it until it sleeps. With no data, what a server says to begin with."""
        if data:
            self.send(data, is_last)
        said, seen, seconds = b"", {}, SHORTEST_REST
        while True:
            more = self.take()
            if more:
                said, seen, seconds = said + more, {}, SHORTEST_REST
            elif self.closed or self.is_silent(seen):
                return said
            else:
                # Only says how soon to look again: at once, where something comes.
                self.is_readable(seconds)
                seconds = min(2 * seconds, LONGEST_REST)
            expect_reader(0)

    def close(self):
        """Ends it. What the server has said unasked ends the adapter."""
        self.expect_nothing()
        self.stream.close()

    def expect_nothing(self):
        if not self.closed and self.is_readable(0):
            raise Stop("the server spoke after it had been taken for silent")

    def is_readable(self, seconds):
        return bool(select.select([self.stream], [], [], seconds)[0])

    def take(self):
        """What has come, or the front of that, without a wait."""
        said = b""
        try:
            # The server isn't kept waiting for a receipt.
            self.stream.setsockopt(socket.IPPROTO_TCP, socket.TCP_QUICKACK, 1)
            said = self.stream.recv(65536)
            self.closed = not said
        except BlockingIOError:
            pass
        except ConnectionResetError:
            self.closed = True
        if self.closed:
            self.expect_server()
        self.received += len(said)
        return said

    def expect_server(self):
        """A server that has died closes nothing: that would be an answer."""
        if not self.server.lives():
            raise Stop("the server has ended")

    def is_silent(self, seen):
        """Whether the server sleeps and nothing is under way: its threads slept from a first look to a second one, and between
        the two it had read all that was sent, and all that it had sent was here. A thread that waits for a time has to have come
        to the end of one such wait without a word; `seen` has how often each had been switched before."""
        first = self.server.threads()
        if not all(state in (b"S", b"Z") for state, _, _ in first.values()):
            return False
        if far_end(*self.names) != (True, 0, self.sent, 0, self.received):
            return False
        for task, (state, switches, children) in first.items():
            if state == b"S" and waits_for_a_time(task, children):
                seen.setdefault(task, switches)
        still = any(first[task][1] == switches for task, switches in seen.items() if task in first)
        return not still and not self.is_readable(0) and self.server.threads() == first


def expect_reader(milliseconds, *streams):
    """Waits until one of the streams has something, and ends the adapter where nobody reads its answers any more."""
    poll = select.poll()
    for stream in streams:
        poll.register(stream, select.POLLIN)
    poll.register(adapter.answers_file, 0)
    if any(number == adapter.answers_file for number, _ in poll.poll(milliseconds)):
        raise Stop("the learner has ended")


def connect(server):
    while True:
        try:
            return socket.create_connection((HOST, server.port))
        except ConnectionRefusedError:
            # Looks again in a millisecond, until it listens or has ended.
            if server.has_ended(0.001):
                raise Stop("the server has ended") from None
            expect_reader(0)


def waits_for_a_time(task, children):
    """Whether a thread sleeps for a time and not only until something comes, so that it may go on, and speak, by itself."""
    try:
        number, *arguments = look(f"{task}/syscall").split()
        place = LIMITS[os.uname().machine].get(int(number), len(arguments))
        if place is ALWAYS:
            # A process that has started others may wait for their signals.
            return not (children and int(number) in SIGNALS)
        return place < len(arguments) and int(arguments[place], 16) not in NO_LIMIT
    except PermissionError:
        raise Stop("the server's threads can't be looked at: does it run as another user?") from None
    except (ValueError, FileNotFoundError, ProcessLookupError):
        # It runs, or has ended.
        return False


def far_end(near, far):
    """Of the server's end of a connection: whether a process has it, how many bytes it hasn't read yet, how many have come in
    all, how many it hasn't sent yet, and how many it has sent in all. Nothing, where the system knows no such end."""
    names = struct.pack("!HH16s16s", far[1], near[1], socket.inet_aton(far[0]), socket.inet_aton(near[0]))
    with_numbers, all_states, no_cookie = 1 << 1, 0xFFFFFFFF, (0xFFFFFFFF, 0xFFFFFFFF)
    request = struct.pack("=BBBxI", socket.AF_INET, socket.IPPROTO_TCP, with_numbers, all_states)
    request += names + struct.pack("=III", 0, *no_cookie)
    by_family, is_request = 20, 1
    stream = numbers_of_sockets()
    stream.send(struct.pack("=IHHII", 16 + len(request), by_family, is_request, 0, 0) + request)
    reply = stream.recv(65536)
    length, kind = struct.unpack_from("=IH", reply)
    if kind != by_family:
        return None
    unread, _, _, inode = struct.unpack_from("=IIII", reply, 72)
    place = 88
    while place < length:
        size, attribute = struct.unpack_from("=HH", reply, place)
        if attribute == 2:
            # The structure `tcp_info`: bytes received, not sent yet, sent, and sent again.
            come, = struct.unpack_from("=Q", reply, place + 4 + 128)
            unsent, = struct.unpack_from("=I", reply, place + 4 + 144)
            sent, again = struct.unpack_from("=QQ", reply, place + 4 + 200)
            return inode != 0, unread, come, unsent, sent - again
        place += (size + 3) & ~3
    return None


def can_look():
    """Whether the system tells here what adapters ask it about sockets and threads."""
    with socket.create_server((HOST, 0)) as server:
        near = socket.create_connection(server.getsockname())
        far, _ = server.accept()
        with near, far:
            try:
                look(f"/proc/{os.getpid()}/task/{os.getpid()}/syscall")
                return os.uname().machine in LIMITS and far_end(near.getsockname(), near.getpeername()) is not None
            except OSError:
                return False


@functools.cache
def numbers_of_sockets():
    """The stream over which the system is asked about its sockets: NETLINK_SOCK_DIAG."""
    return socket.socket(socket.AF_NETLINK, socket.SOCK_RAW, 4)
