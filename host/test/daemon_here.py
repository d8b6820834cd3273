"""A daemon of the program in a folder of its own, a directory that answers it, and clients that ask as they should."""
import contextlib
import json
import os
import random
import signal
import socket
import struct
import subprocess
import sys
import threading
import time

from frame import frame
from trial import HOST, TEST, check

# How long the slowest answer of the tests' own directory takes at most, in seconds.
LOOKUP_BOUND = 60


def unit_environment():
    """What its unit gives the daemon."""
    with open(os.path.join(HOST, "systemd", "bixethomi.service"), encoding="ascii") as unit:
        lines = [line.split("=", 1)[1].split() for line in unit if line.startswith("Environment=")]
    return dict(word.split("=", 1) for words in lines for word in words)


class Client:
    """One connection that asks as it should."""

    def __init__(self, path, bound=LOOKUP_BOUND + 20):
        self.stream = socket.socket(socket.AF_UNIX)
        # While the queue of the socket is full, a blocking connect waits, and another is refused.
        self.stream.setsockopt(socket.SOL_SOCKET, socket.SO_SNDTIMEO, struct.pack("ll", int(bound) + 1, 0))
        self.stream.connect(path)
        self.stream.settimeout(bound)

    def __enter__(self):
        return self

    def __exit__(self, *_):
        self.stream.close()

    def take(self, count):
        data = b""
        while len(data) < count:
            more = self.stream.recv(count - len(data))
            if not more:
                raise ConnectionError("the connection ended")
            data += more
        return data

    def reply(self):
        return self.take(struct.unpack(">I", self.take(4))[0]).decode("utf-8", "replace")

    def ask(self, *words):
        self.stream.sendall(frame(*words))
        return self.reply()


def percentile(times, share):
    ordered = sorted(times)
    return ordered[min(len(ordered) - 1, int(share * len(ordered)))] if ordered else float("inf")


class Directory:
    """A directory that answers by the names that it is asked for (test/hostile_directory.py)."""

    def __init__(self, seed, processes=1):
        self.process = subprocess.Popen(
            [sys.executable, os.path.join(TEST, "hostile_directory.py"), seed, str(processes)],
            stdin=subprocess.PIPE, stdout=subprocess.PIPE, text=True, start_new_session=True)
        self.port = int(self.process.stdout.readline())

    def __enter__(self):
        return self

    def __exit__(self, *_):
        if self.process.poll() is None:
            os.killpg(self.process.pid, signal.SIGKILL)
            self.process.wait()

    def end(self):
        """Ends it, and tells how often it answered by each word."""
        return json.loads(self.process.communicate(timeout=20)[0])

    def falls_silent(self):
        os.killpg(self.process.pid, signal.SIGSTOP)


class Daemon:
    """A daemon in a folder of its own. `front` is the command in front of the program's, `store` where it keeps its rows."""

    def __init__(self, program, folder, port, store=None, front=(), environment=(), journal=50000, absent=1, lasts=5400, outage=1):
        os.makedirs(folder, exist_ok=True)
        self.words = [*front, program, "serve", os.path.join(folder, "bixethomi.conf"), os.path.join(folder, "socket"),
                      *([store] if store else [])]
        self.socket = os.path.join(folder, "socket")
        self.public, self.log = self.socket + ".public", os.path.join(folder, "log")
        self.environment = {**os.environ, **unit_environment(), **dict(environment)}
        with open(os.path.join(folder, "bixethomi.conf"), "w", encoding="ascii") as out:
            out.write("\n".join((
                "[sssd]", "domains = test", "journal_limit = %d" % journal,
                "[nss]", "entry_negative_timeout = %d" % absent,
                "[domain/test]", "id_provider = ldap", "cache_credentials = TRUE",
                "ldap_uri = ldap://127.0.0.1:%d" % port, "ldap_search_base = dc=test",
                "entry_cache_timeout = %d" % lasts, "offline_timeout = %d" % outage, "")))
        self.start()

    def __enter__(self):
        return self

    def __exit__(self, *_):
        if self.lives():
            self.process.kill()
            self.process.wait()

    def start(self):
        with open(self.log, "ab") as log:
            self.process = subprocess.Popen(self.words, stdin=subprocess.DEVNULL, stdout=log, stderr=log, env=self.environment)

    def comes_up(self):
        end = time.monotonic() + 20
        while time.monotonic() < end and self.lives():
            with contextlib.suppress(OSError):
                with Client(self.public, 5) as client:
                    return client.ask("user", "root") == "filtered"
            time.sleep(0.02)
        return False

    def stops(self):
        """Its status after the word to stop; None where it does not end."""
        with contextlib.suppress(OSError):
            with Client(self.socket) as client:
                client.ask("stop")
            # The daemon may wait for a connection.
            Client(self.socket, 2).stream.close()
        return self.ends()

    def ends(self):
        try:
            return self.process.wait(20)
        except subprocess.TimeoutExpired:
            return None

    def told(self):
        with open(self.log, encoding="utf-8", errors="replace") as log:
            return log.read()

    def last_line(self):
        return (self.told().strip().splitlines() or [""])[-1]

    def lives(self):
        return self.process.poll() is None

    def descriptors(self):
        return len(os.listdir("/proc/%d/fd" % self.process.pid))

    def threads(self):
        return len(os.listdir("/proc/%d/task" % self.process.pid))

    def memory(self):
        """Of its own pages, in KiB."""
        with open("/proc/%d/smaps_rollup" % self.process.pid, encoding="ascii") as rollup:
            return next(int(line.split()[1]) for line in rollup if line.startswith("Pss:"))

    def arenas(self):
        """How many arenas of the C library's allocator its threads have: each begins at a multiple of 64 MiB."""
        with open("/proc/%d/maps" % self.process.pid, encoding="ascii", errors="replace") as maps:
            fields = [line.split() for line in maps]
        return sum(len(found) == 5 and int(found[0].split("-")[0], 16) % (64 << 20) == 0 for found in fields)


class Peak(threading.Thread):
    """The most memory that a daemon was seen to have."""

    def __init__(self, daemon):
        super().__init__(daemon=True)
        self.daemon_watched, self.most, self.is_over = daemon, 0, threading.Event()
        self.start()

    def run(self):
        while not self.is_over.wait(0.1):
            with contextlib.suppress(OSError):
                self.most = max(self.most, self.daemon_watched.memory())


class GoodClient(threading.Thread):
    """Asks for names that are kept, of so many, until it is ended, and keeps the times of the answers."""

    # Of its answers half come within so many seconds, and 99 in 100: it waits for a forget, a flush and a processor. A machine with nothing
    # else to do needs milliseconds.
    HALF_BOUND, BOUND = 0.25, 10

    def __init__(self, daemon, is_new_each_time, names):
        super().__init__(daemon=True)
        self.place, self.is_new, self.names = daemon.public, is_new_each_time, names
        self.times, self.faults, self.last_fault = [], 0, ""
        self.ends = threading.Event()
        self.start()

    def run(self):
        dice, client = random.Random(7), None
        while not self.ends.is_set():
            name = "m%d" % dice.randrange(self.names)
            began = time.monotonic()
            try:
                if client is None:
                    client = Client(self.place)
                reply = client.ask("user", name)
                self.times.append(time.monotonic() - began)
                if not reply.startswith(("found ", "old ")) or ":/home/%s:" % name not in reply:
                    self.faults, self.last_fault = self.faults + 1, reply
            except OSError as fault:
                self.faults, self.last_fault = self.faults + 1, str(fault)
                client = None
                self.ends.wait(0.05)
            if self.is_new and client is not None:
                client.stream.close()
                client = None
            self.ends.wait(0.002)

    def report(self, name):
        self.ends.set()
        self.join()
        check("%s: each of %d answers is the right one" % (name, len(self.times)), self.faults == 0 and self.times,
              "" if self.faults == 0 else "%d were not, the last: %s" % (self.faults, self.last_fault))
        check_times(name, self.times)


def check_times(name, times):
    p50, p99, longest = (1000 * percentile(times, share) for share in (0.5, 0.99, 1))
    check("%s: half within %d ms, 99 of 100 within %d s" % (name, GoodClient.HALF_BOUND * 1000, GoodClient.BOUND),
          p50 <= GoodClient.HALF_BOUND * 1000 and p99 <= GoodClient.BOUND * 1000,
          "p50 %.2f ms, p99 %.2f ms, longest %.0f ms" % (p50, p99, longest))


def users_known(daemon, count, clients=1):
    """Asks for so many users, and gives the first false reply."""
    faults = []

    def ask(first):
        try:
            with Client(daemon.public) as client:
                names = ["m%d" % number for number in range(first, count, clients)]
                for at in range(0, len(names), 50):
                    client.stream.sendall(b"".join(frame("user", name) for name in names[at:at + 50]))
                    faults.extend(reply for reply in (client.reply() for _ in names[at:at + 50]) if not reply.startswith("found "))
        except OSError as fault:
            faults.append(str(fault))

    askers = [threading.Thread(target=ask, args=(first,), daemon=True) for first in range(clients)]
    for asker in askers:
        asker.start()
    for asker in askers:
        asker.join()
    return faults[0] if faults else ""
