#!/usr/bin/env python3
"""A stand-in for the daemon, for tests of the modules: the same frames and reply texts over the same two
sockets, answered from the directory of the tests, and every way in which a reply may go wrong.

    fake_daemon.py SOCKET [--behave BEHAVIOUR] [--behave-public BEHAVIOUR] [--attempts N] [--delay MINUTES] [--expiration DAYS] [--log FILE]

SOCKET takes every command, SOCKET.public those of users. A line `ready` is printed once both listen.
The administrator's `offline` and `online` begin and end an outage, `stop` ends the process.

A user's or group's name that begins with `!` is a behaviour, for that request alone; --behave sets one
for every request, --behave-public one for those of SOCKET.public. Bytes in it may be written as %XX.

    !say TEXT      the text in a whole reply            !cut N      N bytes of the reply, then the end
    !raw BYTES     the bytes alone, then the end        !slow MS    a byte of the reply each MS milliseconds
    !silent        no reply                             !hangup     the end in place of a reply
    !deaf          with --behave: the end at once       !long       a length of 2^32 - 1
    !over          one byte more than the length says   !under      one byte less, and no end
    !mutate SEED   the reply with some of its bytes changed
    !rule N        a rule that grants, whose name has N bytes
    !numbers A B   a user of uid A and gid B, a group of gid A, or a user's groups A and B
"""
import argparse
import os
import random
import re
import socket
import struct
import sys
import threading
import time

sys.path.insert(0, os.path.dirname(os.path.abspath(__file__)))
from directory import Directory  # noqa: E402

PUBLIC = {1, 2, 3, 4, 5, 16, 17}


def field(text, also=b""):
    return b"".join(b"\\%02x" % b if b < 0x20 or b == 0x7F or b in b":\\" + also else bytes([b])
                    for b in text.encode())


class BadFrame(Exception):
    pass


class Fields:
    """The fields of a frame's body, which nothing may follow."""

    def __init__(self, body):
        self.left = body

    def take(self, count):
        if len(self.left) < count:
            raise BadFrame
        taken, self.left = self.left[:count], self.left[count:]
        return taken

    def number(self):
        return struct.unpack(">I", self.take(4))[0]

    def text(self, shortest, longest):
        length = struct.unpack(">H", self.take(2))[0]
        if not shortest <= length <= longest:
            raise BadFrame
        return self.take(length).decode("utf-8", "surrogateescape")

    def end(self):
        if self.left:
            raise BadFrame


def read_request(body):
    fields = Fields(body)
    command = fields.take(1)[0]
    if command in (1, 3, 5):
        request = (command, fields.text(1, 255))
    elif command in (2, 4):
        request = (command, fields.number())
    elif command == 16:
        request = (command, fields.text(1, 255), fields.text(0, 1024))
    elif command == 17:
        request = (command, fields.text(1, 255), fields.text(1, 255))
    elif command == 32:
        kind = fields.take(1)[0]
        if kind > 4:
            raise BadFrame
        request = (command, kind) + ((fields.text(1, 255),) if kind in (1, 3) else ())
    elif command in (33, 34, 35):
        request = (command,)
    else:
        raise BadFrame
    fields.end()
    return request


class Daemon:
    """Answers as the daemon does with cache_credentials on, over one directory that can be unreachable."""

    def __init__(self, words):
        self.socket, self.directory = words.socket, Directory()
        self.attempts, self.delay, self.days = words.attempts, words.delay, words.expiration
        self.lock = threading.Lock()
        self.entries = 0          # of the journal
        self.outage = None        # the number of the entry that began it
        self.kept = {}            # key: number, line or None
        self.hashes = {}          # user: moment, password
        self.wrong = {}           # user: count, moment of the last
        self.log = open(words.log, "a", buffering=1) if words.log else None

    def note(self, request):
        if self.log:
            shown = [str(part) for part in request]
            if request[0] == 16:
                shown[2] = "-"
            self.log.write(" ".join(shown) + "\n")

    def step(self, entries=1):
        self.entries += entries
        return self.entries

    def user_line(self, user):
        if user is None:
            return None
        return b"%s:*:%d:%d:%s:%s:%s" % (field(user.name), user.uid, user.gid, field(user.gecos),
                                         field(user.home), field(user.shell))

    def group_line(self, group):
        if group is None:
            return None
        members = b",".join(field(name, b",") for name in self.directory.members(group))
        return b"%s:*:%d:%s" % (field(group.name), group.gid, members)

    def groups_line(self, name):
        if self.directory.user(name) is None:
            return None
        gids = b",".join(b"%d" % g.gid for g in self.directory.groups_of(name))
        return b"%s:%s" % (field(name), gids)

    def line_of(self, request):
        directory = self.directory
        if request[0] == 1:
            return self.user_line(directory.user(request[1]))
        if request[0] == 2:
            return self.user_line(next((u for u in directory.users if u.uid == request[1]), None))
        if request[0] == 3:
            return self.group_line(directory.group(request[1]))
        if request[0] == 4:
            return self.group_line(next((g for g in directory.groups if g.gid == request[1]), None))
        return self.groups_line(request[1])

    def look_up(self, request):
        if request[0] in (1, 3, 5) and request[1] == "root":
            self.step()
            return b"filtered"
        if self.outage is not None:
            self.step()
            if request not in self.kept:
                return b"dark %d" % self.outage
            number, line = self.kept[request]
            return b"oldnone %d %d" % (number, self.outage) if line is None else \
                b"old %d %d %s" % (number, self.outage, line)
        if request in self.kept:
            self.step()
        else:
            line = self.line_of(request)
            self.kept[request] = (self.step(3), line)
        number, line = self.kept[request]
        return b"none %d" % number if line is None else b"found %d %s" % (number, line)

    def is_found(self, text):
        return text.startswith((b"found ", b"old "))

    def log_in(self, name, password):
        if password == "":
            return b"denied empty"
        text = self.look_up((1, name))
        if not self.is_found(text):
            return text
        user, now = self.directory.user(name), int(time.time())
        if self.outage is None:
            number = self.step(3)
            if password != user.password:
                return b"wrong online %d" % number
            self.hashes[name] = (now, password)
            self.wrong.pop(name, None)
            return b"accepted online %d" % number
        if name not in self.hashes:
            self.step(2)
            return b"nohash"
        moment, right = self.hashes[name]
        count, last = self.wrong.get(name, (0, 0))
        number = self.step(3)
        if self.days and now > moment + 86400 * self.days:
            return b"expired %d" % (moment + 86400 * self.days)
        if self.attempts and count and count % self.attempts == 0:
            if self.delay == 0:
                return b"blocked online"
            if now < last + 60 * self.delay:
                return b"blocked %d" % (last + 60 * self.delay)
        if password == right:
            self.wrong.pop(name, None)
            return b"accepted offline %d" % number
        self.wrong[name] = (count + 1, now)
        return b"wrong offline %d" % number

    def check(self, name, service):
        text = self.look_up((1, name))
        if not self.is_found(text):
            return text
        rule = self.directory.rule_for(name, service)
        number = self.step()
        return b"denied %d norule" % number if rule is None else \
            b"granted %d rule %s" % (number, field(rule.name))

    def administer(self, request):
        number = self.step()
        if request[0] == 32:
            self.kept.clear()
        elif request[0] == 33:
            self.outage = number
        elif request[0] == 34:
            self.outage = None
        return b"done %d" % number

    def reply_to(self, request):
        with self.lock:
            self.note(request)
            if request[0] == 16:
                return self.log_in(request[1], request[2])
            if request[0] == 17:
                return self.check(request[1], request[2])
            return self.look_up(request) if request[0] in PUBLIC else self.administer(request)


def unescaped(text):
    return re.sub(rb"%([0-9a-fA-F]{2})", lambda m: bytes([int(m[1], 16)]), text.encode("utf-8", "surrogateescape"))


def mutated(whole, seed):
    dice, bytes_ = random.Random(seed), bytearray(whole)
    for _ in range(dice.randint(1, 4)):
        kind, at = dice.randrange(4), dice.randrange(len(bytes_))
        if kind == 0:
            bytes_[at] = dice.randrange(256)
        elif kind == 1:
            bytes_[at] ^= 1 << dice.randrange(8)
        elif kind == 2 and len(bytes_) > 1:
            del bytes_[at]
        else:
            bytes_.insert(at, dice.randrange(256))
    return bytes(bytes_)


def send_reply(connection, text, behaviour):
    """Sends the reply; false where the connection is then to end."""
    whole = struct.pack(">I", len(text)) + text
    word, _, rest = behaviour.partition(" ")
    if word == "say":
        text = unescaped(rest)
        whole = struct.pack(">I", len(text)) + text
    elif word == "rule":
        text = b"granted 7 rule " + b"x" * int(rest)
        whole = struct.pack(">I", len(text)) + text
    elif word == "raw":
        connection.sendall(unescaped(rest))
        return False
    elif word == "cut":
        connection.sendall(whole[:int(rest)])
        return False
    elif word == "slow":
        for at in range(len(whole)):
            connection.sendall(whole[at:at + 1])
            time.sleep(float(rest) / 1000)
        return True
    elif word == "silent":
        time.sleep(3600)
        return False
    elif word == "hangup":
        return False
    elif word == "long":
        whole = b"\xff\xff\xff\xff" + text
    elif word == "over":
        whole += b"x"
    elif word == "under":
        whole = struct.pack(">I", len(text) + 1) + text
    elif word == "mutate":
        connection.sendall(mutated(whole, rest))
        return False
    connection.sendall(whole)
    return True


def numbered(request):
    """The reply to a question for a name that says its own numbers."""
    name, first, second = (request[1], *request[1].split(" ")[1:])
    if request[0] == 1:
        return b"found 3 %s:*:%s:%s::/home:/bin/sh" % (field(name), first.encode(), second.encode())
    if request[0] == 3:
        return b"found 3 %s:*:%s:" % (field(name), first.encode())
    return b"found 3 %s:%s,%s" % (field(name), first.encode(), second.encode())


def take(connection, count):
    have = b""
    while len(have) < count:
        more = connection.recv(count - len(have))
        if not more:
            return None
        have += more
    return have


def serve(daemon, connection, is_public, behave):
    with connection:
        try:
            while not behave.startswith("deaf"):
                head = take(connection, 4)
                if head is None:
                    return
                length = struct.unpack(">I", head)[0]
                if not 1 <= length <= 65536:
                    raise BadFrame
                body = take(connection, length)
                if body is None:
                    return
                request = read_request(body)
                if is_public and request[0] not in PUBLIC:
                    raise BadFrame
                named = len(request) > 1 and str(request[1]).startswith("!")
                text = b"none 1" if named else daemon.reply_to(request)
                if named:
                    daemon.note(request)
                if named and request[1].startswith("!numbers ") and request[0] in (1, 3, 5):
                    text = numbered(request)
                if not send_reply(connection, text, request[1][1:] if named else behave):
                    return
                if request[0] == 35:
                    os.unlink(daemon.socket)
                    os.unlink(daemon.socket + ".public")
                    os._exit(0)
        except BadFrame:
            daemon.note(("bad frame",))
        except OSError:
            pass


def listen(path, mode):
    listener = socket.socket(socket.AF_UNIX, socket.SOCK_STREAM)
    if os.path.exists(path):
        os.unlink(path)
    mask = os.umask(0o177)
    listener.bind(path)
    os.umask(mask)
    os.chmod(path, mode)
    listener.listen(128)
    return listener


def accept(daemon, listener, is_public, behave):
    while True:
        connection, _ = listener.accept()
        threading.Thread(target=serve, args=(daemon, connection, is_public, behave), daemon=True).start()


def main():
    parser = argparse.ArgumentParser()
    parser.add_argument("socket")
    parser.add_argument("--behave", default="")
    parser.add_argument("--behave-public")
    parser.add_argument("--attempts", type=int, default=0)
    parser.add_argument("--delay", type=int, default=5)
    parser.add_argument("--expiration", type=int, default=0)
    parser.add_argument("--log")
    words = parser.parse_args()
    daemon = Daemon(words)
    behave = words.behave.lstrip("!")
    behave_public = behave if words.behave_public is None else words.behave_public.lstrip("!")
    private = listen(words.socket, 0o600)
    public = listen(words.socket + ".public", 0o666)
    threading.Thread(target=accept, args=(daemon, private, False, behave), daemon=True).start()
    print("ready", flush=True)
    accept(daemon, public, True, behave_public)


if __name__ == "__main__":
    main()
