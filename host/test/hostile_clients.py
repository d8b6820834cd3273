"""Clients that ask as they should not. Each runs until `ends` is set, in a process of its own, and adds what it did to its tally; those
at the end send once, and tell how long the daemon bore it."""
import random
import threading
import time

from daemon_here import LOOKUP_BOUND, Client
from frame import frame

# A directory's bound between a request and its reply, and a door's in the middle of a frame or reply, in seconds.
SILENCE_BOUND, DOOR_BOUND = 6, 10
# So many names are answered falsely in each way, again and again.
FALSE_NAMES = 50
FAST = ("mutated", "mutated", "mutated", "cut", "reset", "length", "deep", "code", "many", "notice")
SLOW = ("silent", "drip", "others", "references", "entries")


def ask_for_false_answers(place, seed, ends, tally):
    """Names whose answers are false and quick: each is made void, and the server called back, before it is asked."""
    dice = random.Random("answers %s" % seed)
    while not ends.is_set():
        try:
            with Client(place) as client:
                for _ in range(200):
                    if ends.is_set():
                        break
                    name = "%s-%d" % (dice.choice(FAST), dice.randrange(FALSE_NAMES))
                    # Now and then the password's bind is what is answered so.
                    is_login = dice.randrange(4) == 0
                    if is_login:
                        name = "bind-" + name
                    client.ask("online")
                    client.ask("void-user", name)
                    client.ask(*(("login", name, "guess") if is_login else ("user", name)))
                    with tally.get_lock():
                        tally.value += 1
        except OSError:
            ends.wait(0.05)


def ask_for_slow_answers(place, seed, ends, tally):
    """Names whose answers do not end, or do not begin; some clients leave meanwhile."""
    dice = random.Random("slow %s" % seed)

    def one(word, number):
        leaves = dice.randrange(2) == 0
        try:
            with Client(place, 0.3 if leaves else LOOKUP_BOUND + 20) as client:
                client.ask("online")
                client.ask("user", "%s-%d" % (word, number))
        except OSError:
            pass

    number = 0
    while not ends.is_set():
        askers = [threading.Thread(target=one, args=(word, number), daemon=True) for word in SLOW]
        for asker in askers:
            asker.start()
        tally.value += len(askers)
        number += 1
        ends.wait(SILENCE_BOUND + 1)


def mutated_frame(dice):
    words = dice.choice((("user", "m1"), ("uid", "7"), ("group", "crowd"), ("gid", "30004"), ("groups", "m2"),
                         ("login", "m3", "guess"), ("access", "m4", "sshd"), ("void-user", "m5")))
    data = bytearray(frame(*words))
    for _ in range(dice.randint(1, 3)):
        at = dice.randrange(len(data))
        change = dice.randrange(5)
        if change == 0:
            data[at] ^= 1 << dice.randrange(8)
        elif change == 1:
            data[at] = dice.randrange(256)
        elif change == 2 and len(data) > 1:
            del data[at]
        elif change == 3:
            data.insert(at, dice.randrange(256))
        elif len(data) > 2:
            del data[dice.randrange(1, len(data)):]
    return bytes(data)


def send_false_frames(place, seed, ends, tally):
    """Mutated and half frames at the public socket, after which the client waits for a moment, or does not."""
    dice = random.Random("frames %s" % seed)
    while not ends.is_set():
        try:
            with Client(place + ".public", 0.05) as client:
                client.stream.sendall(mutated_frame(dice))
                tally.value += 1
                if dice.randrange(2):
                    client.stream.recv(4096)
        except OSError:
            pass


def without_end_of_frame(daemon, found):
    """Half a frame, and nothing more: the seconds until the daemon ends the connection; None where it does not."""
    with Client(daemon.public, DOOR_BOUND + 10) as client:
        began = time.monotonic()
        client.stream.sendall(frame("user", "m1")[:7])
        try:
            found["seconds"] = time.monotonic() - began if client.stream.recv(1) == b"" else None
        except ConnectionError:
            found["seconds"] = time.monotonic() - began
        except OSError:
            found["seconds"] = None


def without_reading(daemon, found):
    """Requests whose replies nobody reads: the seconds from the last request that the daemon took until it ends the
    connection."""
    with Client(daemon.public, DOOR_BOUND + 10) as client:
        requests, taken = frame("group", "crowd"), time.monotonic()
        try:
            while True:
                client.stream.sendall(requests)
                taken = time.monotonic()
        except TimeoutError:
            found["seconds"] = None
        except OSError:
            found["seconds"] = time.monotonic() - taken
