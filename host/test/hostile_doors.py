"""Clients that try to hold the daemon's doors: a thousand connections of one kind, beside good clients. Each kind runs in a process of
its own until it is ended, and keeps its connections: one that the daemon ends is made anew."""
import contextlib
import errno
import multiprocessing
import resource
import select
import socket
import threading
import time

from daemon_here import Client, percentile
from frame import frame
from trial import check

# A frame of the greatest length, announced and not sent; a byte of it comes every second.
LONG_FRAME = (65536).to_bytes(4, "big") + b"\x01"
HALF_FRAME = frame("user", "m1")[:7]
WHOLE_FRAME = frame("user", "m1")
# So many frames are written at once, where a client asks without a pause.
BURST = 20
KINDS = ("silent", "half a frame", "a byte a second", "frames without a pause", "replies that nobody reads", "connect and close")


def raise_limits(count):
    """Lets this process and its children have so many connections, where the system allows it; gives how many it may have."""
    wanted = count + 200
    soft, hard = resource.getrlimit(resource.RLIMIT_NOFILE)
    if soft < wanted:
        with contextlib.suppress(OSError, ValueError):
            resource.setrlimit(resource.RLIMIT_NOFILE, (wanted, max(hard, wanted)))
    soft, _ = resource.getrlimit(resource.RLIMIT_NOFILE)
    return min(count, soft - 100)


class Held:
    """So many connections, each in a state of its kind. A connection that ends is made anew, a hundred a second at most."""

    AGAIN = 100

    def __init__(self, place, count):
        self.place, self.streams, self.count = place, {}, count
        self.poll, self.began, self.made = select.epoll(), time.monotonic(), 0

    def connect(self):
        stream = socket.socket(socket.AF_UNIX)
        stream.setblocking(False)
        try:
            stream.connect(self.place)
        except OSError as fault:
            stream.close()
            if fault.errno not in (errno.EAGAIN, errno.ECONNREFUSED, errno.ENOENT, errno.EMFILE, errno.ENFILE):
                raise
            return None
        self.streams[stream.fileno()] = stream
        self.poll.register(stream.fileno(), select.EPOLLIN)
        return stream

    def fill(self, greeting):
        may_make = self.count + int(self.AGAIN * (time.monotonic() - self.began)) - self.made
        for _ in range(min(100, self.count - len(self.streams), may_make)):
            stream = self.connect()
            if stream is None:
                return
            self.made += 1
            self.send(stream, greeting)

    def send(self, stream, data):
        with contextlib.suppress(BlockingIOError):
            try:
                return stream.send(data) if data else 0
            except BlockingIOError:
                return 0
            except OSError:
                self.end(stream.fileno())
        return 0

    def end(self, number):
        stream = self.streams.pop(number, None)
        if stream is not None:
            self.poll.unregister(number)
            stream.close()

    def drop_ended(self, reads):
        """Ends the connections that the daemon ended; `reads` takes the replies of the others."""
        for number, _ in self.poll.poll(0.01, 256):
            stream = self.streams.get(number)
            if stream is None:
                continue
            try:
                data = stream.recv(65536) if reads else stream.recv(1, socket.MSG_PEEK)
            except BlockingIOError:
                continue
            except OSError:
                data = b""
            if not data:
                self.end(number)
            elif reads:
                yield stream
            else:
                self.poll.modify(number, 0)


def hold(place, count, ends, up, greeting, each_second):
    """Connections that send this first, and that once a second."""
    held, last = Held(place, count), time.monotonic()
    while not ends.is_set():
        held.fill(greeting)
        up.value = len(held.streams)
        for _ in held.drop_ended(False):
            pass
        if each_second and time.monotonic() - last >= 1:
            last = time.monotonic()
            for stream in list(held.streams.values()):
                held.send(stream, each_second)
        ends.wait(0.05)


def ask_without_a_pause(place, count, ends, up):
    held = Held(place, count)
    while not ends.is_set():
        held.fill(WHOLE_FRAME * BURST)
        up.value = len(held.streams)
        for stream in list(held.drop_ended(True)):
            held.send(stream, WHOLE_FRAME * BURST)


def never_read(place, count, ends, up):
    """Requests whose replies are long, until none can be sent."""
    held, requests = Held(place, count), frame("group", "crowd") * 50
    while not ends.is_set():
        held.fill(requests)
        up.value = len(held.streams)
        for stream in list(held.streams.values()):
            if ends.is_set():
                return
            held.send(stream, requests)
        for _ in held.drop_ended(False):
            pass
        ends.wait(0.02)


def come_and_go(place, count, ends, up):
    """Connects and closes; as many connections are open at a time as of the other kinds, for a moment."""
    while not ends.is_set():
        streams = []
        for _ in range(min(count, 200)):
            stream = socket.socket(socket.AF_UNIX)
            stream.setblocking(False)
            with contextlib.suppress(OSError):
                stream.connect(place)
            streams.append(stream)
        up.value = max(up.value, len(streams))
        for stream in streams:
            stream.close()


def start(kind, place, count, ends, up):
    """A process of this kind of client."""
    works = {
        "silent": (hold, (place, count, ends, up, b"", b"")),
        "half a frame": (hold, (place, count, ends, up, HALF_FRAME, b"")),
        "a byte a second": (hold, (place, count, ends, up, LONG_FRAME, b"x")),
        "frames without a pause": (ask_without_a_pause, (place, count, ends, up)),
        "replies that nobody reads": (never_read, (place, count, ends, up)),
        "connect and close": (come_and_go, (place, count, ends, up)),
    }
    work, arguments = works[kind]
    process = multiprocessing.Process(target=work, args=arguments, daemon=True)
    process.start()
    return process


class Asker(threading.Thread):
    """A good client, which asks for a known name at a socket again and again, and keeps the times of its answers."""

    def __init__(self, place, is_new_each_time, names):
        super().__init__(daemon=True)
        self.place, self.is_new, self.names = place, is_new_each_time, names
        self.times, self.faults, self.ends = [], [], threading.Event()
        self.start()

    def run(self):
        client, number = None, 0
        while not self.ends.is_set():
            name, number = "m%d" % (number % self.names), number + 1
            began = time.monotonic()
            try:
                # Who is sent away for the room of others connects again, as the module of libc does.
                for attempt in range(3):
                    try:
                        client = client or Client(self.place, 60)
                        reply = client.ask("user", name)
                        break
                    except ConnectionError:
                        client = None
                        if attempt == 2:
                            raise
                self.times.append(time.monotonic() - began)
                if not reply.startswith(("found ", "old ")):
                    self.faults.append(reply)
            except OSError as fault:
                self.times.append(time.monotonic() - began)
                self.faults.append(repr(fault))
                client = None
            if self.is_new and client is not None:
                client.stream.close()
                client = None
            self.ends.wait(0.005)

    def report(self, name, bounds):
        """Checks that all answers came, and came in time."""
        self.ends.set()
        self.join(90)
        share, longest = bounds
        p50, p99, most = (1000 * percentile(self.times, part) for part in (0.5, 0.99, 1))
        check("%s: each of %d answers is right" % (name, len(self.times)), self.times and not self.faults,
              "%d were not, as %s" % (len(self.faults), self.faults[0]) if self.faults else "")
        check("%s: 99 in 100 within %g s, each within %g s" % (name, share, longest), p99 <= share * 1000 and most <= longest * 1000,
              "p50 %.2f ms, p99 %.2f ms, longest %.0f ms" % (p50, p99, most))


def once(name, bound, work):
    """Does a thing once, and checks what it answers and when."""
    began = time.monotonic()
    try:
        reply = work()
    except OSError as fault:
        reply = repr(fault)
    took = time.monotonic() - began
    check("%s within %g s" % (name, bound), reply == "" and took <= bound, "%.3f s%s" % (took, reply and ", " + reply))


def login(place):
    with Client(place, 60) as client:
        reply = client.ask("login", "m1", "guess")
    return "" if reply.startswith("accepted ") else reply


def word(place):
    with Client(place, 60) as client:
        reply = client.ask("void-user", "nobody")
    return "" if reply.startswith("done ") else reply


def beside(daemon, kind, count, seconds, bounds, names):
    """Good clients of both sockets, a login and a word of the administrator beside so many clients of a kind."""
    ends, up = multiprocessing.Event(), multiprocessing.Value("i", 0)
    attackers = start(kind, daemon.public, count, ends, up)
    deadline = time.monotonic() + 30
    while up.value < min(count, 200) and time.monotonic() < deadline:
        time.sleep(0.05)
    good = (("kept", Asker(daemon.public, False, names)), ("new each time", Asker(daemon.public, True, names)),
            ("the administrator's", Asker(daemon.socket, True, names)))
    time.sleep(seconds)
    about = "%d clients, %s" % (count, kind)
    for name, asker in good:
        asker.report("%s: a good client, %s" % (about, name), bounds)
    once("%s: a login of the administrator's" % about, 5 * bounds[1], lambda: login(daemon.socket))
    once("%s: a word of the administrator's" % about, bounds[1], lambda: word(daemon.socket))
    return ends, attackers


def wrong_passwords(daemon, count, allowance):
    """So many wrong passwords at once over the public socket: sixteen a second are answered, each a second late or more. Meanwhile a known
    name and a login of the administrator do not wait."""
    times, lock, began = [], threading.Lock(), time.monotonic()

    def guess(number):
        with contextlib.suppress(OSError), Client(daemon.public, 120) as client:
            reply = client.ask("login", "p%d" % number, "wrong")
            with lock:
                times.append((time.monotonic() - began, reply))

    guessers = [threading.Thread(target=guess, args=(number,), daemon=True) for number in range(count)]
    for guesser in guessers:
        guesser.start()
    once("beside wrong passwords: a known name", allowance, lambda: known(daemon.public))
    once("beside wrong passwords: a login of the administrator's", allowance, lambda: login(daemon.socket))
    for guesser in guessers:
        guesser.join(120)
    moments = sorted(moment for moment, reply in times if reply.startswith("wrong "))
    check("each of %d wrong passwords is told" % count, len(moments) == count, "%d were; %s" % (len(moments), times[:1]))
    check("none within a second", bool(moments) and moments[0] >= 0.99, "the first after %.2f s" % (moments[0] if moments else -1))
    # Of seventeen that follow each other the last comes a second behind the first.
    gaps = [later - first for first, later in zip(moments, moments[16:])]
    check("sixteen in a second at most", not gaps or min(gaps) >= 0.9, "seventeen within %.2f s" % (min(gaps) if gaps else -1))


def known(place):
    with Client(place, 60) as client:
        reply = client.ask("user", "m1")
    return "" if reply.startswith(("found ", "old ")) else reply


def end_all(ends, attackers):
    ends.set()
    attackers.join(10)
    if attackers.is_alive():
        attackers.kill()
        attackers.join()
