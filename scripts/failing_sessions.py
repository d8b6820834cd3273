#!/usr/bin/env python3
"""failing_sessions.py FILE: what the sessions of a file in the form of crates/sd_failing/stdin come to, by the rules alone.

It knows nothing of the program: each reply is looked up in the list of entries by the rules of docs/DEFINITIONS.md, the servers' answers are
spelled by RFC 4511, and a client's request goes on as docs/DEFINITIONS.md tells of requests. crates/sd_failing/stdout is its output, so

    scripts/failing_sessions.py crates/sd_failing/stdin | diff - crates/sd_failing/stdout

prints nothing. It knows lookups of users, logins and the words offline and stop: what the cases need."""
import sys

import ldap_reading as ldap

TIMEOUT, ABSENT_TIMEOUT, OFFLINE_TIMEOUT, SERVER_DOWN, MIDPOINT = 5400, 15, 60, 30, 50
# The most bytes that come over a link before its client gives up.
MOST_OF_LINK = 64 << 20
PASSWORD = "wonderland"
LINE = "alice:*:1000:1000::/home/alice:/bin/sh"
# What the directory sends of alice: her password is never sent.
SENT = (("objectClass", "posixAccount"), ("uid", "alice"), ("uidNumber", "1000"), ("gidNumber", "1000"),
        ("homeDirectory", "/home/alice"), ("loginShell", "/bin/sh"))
ALICE = (b"uid=alice,dc=test", [(name.encode(), [value.encode()]) for name, value in SENT])


def element(tag, body):
    length = len(body)
    front = bytes([length]) if length < 128 else bytes([0x80 | 1, length]) if length < 256 else bytes([0x82, length >> 8, length & 255])
    return bytes([tag]) + front + body


def message(operation):
    return element(0x30, element(2, b"\x01") + operation)


def result(tag, code):
    return message(element(tag, element(0x0A, bytes([code])) + element(4, b"") + element(4, b"")))


def entry_of_alice():
    attributes = b"".join(element(0x30, element(4, name.encode()) + element(0x31, element(4, value.encode()))) for name, value in SENT)
    return message(element(ldap.ENTRY, element(4, b"uid=alice,dc=test") + element(0x30, attributes)))


class Failed(Exception):
    """The link fell."""


class NoReply(Failed):
    """What came over a link, which stands, is no reply."""


class Run:
    """What is outside of a session: it counts the calls, and one of them fails."""

    def __init__(self, case, trouble):
        self.case, self.trouble = case, trouble
        self.counts = dict.fromkeys(("take", "put", "dial", "send", "receive"), 0)
        self.asked, self.faults, self.readings = [], 0, 0

    def fails(self, call):
        self.counts[call] += 1
        kind, first, last = self.trouble if len(self.trouble) == 3 else ("", 0, 0)
        return kind == call and first <= self.counts[call] <= last

    def now(self):
        moments = self.case["moments"]
        self.readings += 1
        return moments[min(self.readings, len(moments)) - 1] if moments else 0

    def spoilt(self, answer):
        if self.trouble[0] == "cut":
            return answer[:self.trouble[1]]
        if self.trouble[0] == "byte":
            place, byte = self.trouble[1]
            return answer[:place] + bytes([byte]) + answer[place + 1:] if place < len(answer) else answer
        return answer

    def over_a_line(self, server, word, answer):
        """One request over a line of its own: the entries of its reply, or raises why there is none."""
        if self.fails("dial"):
            self.faults += 1
            raise Failed("link")
        self.asked.append("dial %d" % server)
        try:
            if self.fails("send"):
                raise Failed("link")
            self.asked.append(word)
            entries = self.reply(self.spoilt(answer), ldap.DONE if word == "search" else ldap.BOUND)
        except Failed as why:
            # A client that failed sends no unbind.
            self.faults += 0 if isinstance(why, NoReply) else 1
            raise
        if self.fails("send"):
            self.faults += 1
        else:
            self.asked.append("unbind")
        return entries

    def reply(self, coming, last):
        """The entries in front of the message that ends a reply. What has another id is passed over, and so are references."""
        if self.trouble[0] == "others":
            raise NoReply("flood %d" % (MOST_OF_LINK + 1))
        entries, at, received = [], 0, 0
        while True:
            try:
                message = ldap.read_message(coming[at:received])
            except ldap.Wrong as place:
                raise NoReply("bytes %s" % place) from None
            if message is None:
                if self.fails("receive") or received == len(coming):
                    raise Failed("link")
                received = min(len(coming), received + self.case["receives"])
                continue
            number, tag, contents, length = message
            at += length
            if number != 1 or tag == ldap.REFERENCE:
                continue
            if tag == last:
                return entries
            if tag != ldap.ENTRY or last != ldap.DONE:
                raise NoReply("message %d" % tag)
            entries.append(contents)


class JournalFull(Exception):
    """The step is refused: entries kept and places reserved."""


class WriteFault(Exception):
    pass


class Daemon:
    """The list of entries: number, moment, event, reply. Events and replies are tuples of a word and what it names."""

    def __init__(self, run, servers, limit):
        self.run, self.servers, self.limit, self.entries = run, servers, limit, []

    # what the list says

    def entry(self, number):
        return self.entries[number - 1]

    def is_open(self, number):
        opens = self.entry(number)[3][0] in ("lead", "refresh", "bind")
        return opens and not any(self.closes(entry, number) for entry in self.entries)

    @staticmethod
    def closes(entry, number):
        event, reply = entry[2], entry[3]
        return event[0] in ("answer", "outage", "abandon", "result") and event[1] == number and reply[0] in ("closed", "shut")

    def reserved(self):
        return sum(1 for number in range(1, len(self.entries) + 1) if self.is_open(number))

    def newest(self, name):
        answers = [e for e in self.entries if e[2][0] == "answer" and e[3] == ("closed",) and self.entry(e[2][1])[2][1] == name]
        return answers[-1] if answers else None

    def outage(self, now):
        outages = [e for e in self.entries if e[2][0] == "offline" or e[2][0] == "outage" and e[3][0] in ("closed", "shut")]
        if not outages or now >= outages[-1][1] + OFFLINE_TIMEOUT:
            return None
        after = self.entries[outages[-1][0]:]
        return None if any(e[2][0] == "answer" and e[3] == ("closed",) for e in after) else outages[-1][0]

    def picked(self, request, now):
        falls = [e for e in self.entries if e[2][0] == "fall" and e[3] == ("noted",)]
        for server in range(self.servers):
            if not any(e[2][2] == server and (e[2][1] == request or now < e[1] + SERVER_DOWN) for e in falls):
                return server
        return None

    def hash_entry(self, user):
        logins = [e[0] for e in self.entries if e[2][0] == "result" and e[2][2] == "right" and self.entry(e[2][1])[2][1] == user]
        return logins[-1] if logins else None

    # the reply to an event

    def ask(self, name, now, number):
        newest, outage = self.newest(name), self.outage(now)
        is_found = newest is not None and newest[2][2] == "found"
        is_fresh = newest is not None and now - newest[1] < (TIMEOUT if is_found else ABSENT_TIMEOUT)
        leads = [e[0] for e in self.entries if e[2] == ("ask", name) and self.is_open(e[0])]
        if is_fresh and is_found and now - newest[1] >= max(10, TIMEOUT * MIDPOINT // 100) and not leads and outage is None:
            return ("refresh", newest[0])
        if is_fresh:
            return ("fresh" if is_found else "gone", newest[0])
        if outage is not None:
            return ("dark", outage) if newest is None else ("old" if is_found else "oldgone", newest[0], outage)
        return ("lead",)

    def reply(self, event, now, number):
        word = event[0]
        if word == "ask":
            return self.ask(event[1], now, number)
        if word == "pick":
            server = self.picked(event[1], now)
            return ("noserver",) if server is None else ("server", server)
        if word == "fall":
            return ("noted",)
        if word == "outage":
            if self.entry(event[1])[2][0] == "login":
                return ("closed",)
            newest = self.newest(self.entry(event[1])[2][1])
            if newest is None:
                return ("shut", "dark", number)
            return ("shut", "old" if newest[2][2] == "found" else "oldgone", newest[0], number)
        if word in ("answer", "abandon", "result"):
            return ("closed",)
        if word == "login":
            outage = self.outage(now)
            return ("bind",) if outage is None else ("offline", outage)
        if word == "look":
            found = self.hash_entry(event[1])
            return ("nohash",) if found is None else ("hash", found)
        if word == "guess":
            return ("accepted",) if event[3] == "right" else ("wrong",)
        return ("done",)

    def step(self, *event):
        now = self.run.now()
        count = len(self.entries) + self.reserved()
        if event[0] != "abandon" and count + 2 > self.limit:
            raise JournalFull(count)
        now = max([now] + [e[1] for e in self.entries[-1:]])
        number = len(self.entries) + 1
        self.entries.append((number, now, event, self.reply(event, now, number)))
        return number, self.entries[-1][3]


class Session:
    """What one client sends, carried out."""

    def __init__(self, case, trouble):
        self.case, self.run = case, Run(case, trouble)
        self.daemon = Daemon(self.run, case["servers"], case["limit"])
        self.written, self.leads = b"", []

    def put(self, frame):
        at = 0
        while at < len(frame):
            if self.run.fails("put"):
                raise WriteFault
            piece = frame[at:at + self.case["puts"]]
            self.written += piece
            at += len(piece)

    def tell(self, text):
        """Tells the client, whose request goes on also where that cannot be written."""
        try:
            self.put(len(text).to_bytes(4, "big") + text.encode())
        except WriteFault:
            self.has_failed = True

    def step(self, *event):
        number, reply = self.daemon.step(*event)
        if reply[0] in ("lead", "refresh", "bind"):
            self.leads.append(number)
        if reply[0] in ("closed", "shut") and event[1] in self.leads:
            self.leads.remove(event[1])
        return number, reply

    def over_servers(self, request, ask):
        """Picks servers for a request until one answers; the outage where none is left."""
        while True:
            _, reply = self.step("pick", request)
            if reply[0] == "noserver":
                return self.step("outage", request)
            server = reply[1]
            try:
                answered = ask(server)
            except Failed as why:
                self.step("fall", request, server, str(why))
                continue
            return self.step(*answered)

    def fetch(self, request, name):
        """Asks for a user: the number and the word of its answer, or the outage."""
        def ask(server):
            entries = entry_of_alice() if name == "alice" else b""
            found = self.run.over_a_line(server, "search", entries + result(ldap.DONE, 0))
            assert found in ([], [ALICE]), "no case is to find another"
            return ("answer", request, "found" if found else "absent")
        return self.over_servers(request, ask)

    def look_up(self, name):
        """What the client is told of a user, whether the user is known, and the refresh that is to follow."""
        number, reply = self.step("ask", name)
        refresh = number if reply[0] == "refresh" else None
        if reply[0] == "lead":
            number, reply = self.fetch(number, name)
            if reply[0] == "closed":
                reply = ("fresh" if self.daemon.entry(number)[2][2] == "found" else "gone", number)
            else:
                reply = reply[1:]
        word = reply[0]
        if word in ("fresh", "refresh"):
            return "found %d %s" % (reply[1], LINE), True, refresh
        if word == "gone":
            return "none %d" % reply[1], False, None
        if word == "old":
            return "old %d %d %s" % (reply[1], reply[2], LINE), True, None
        return {"oldgone": "oldnone %d %d", "dark": "dark %d"}[word] % reply[1:], False, None

    def user(self, name):
        text, _, refresh = self.look_up(name)
        self.tell(text)
        if refresh is not None:
            self.fetch(refresh, name)

    def login(self, name, password=""):
        if not password:
            self.tell("denied empty")
            return
        text, is_known, refresh = self.look_up(name)
        self.tell(self.logged_in(name, password) if is_known else text)
        if refresh is not None:
            self.fetch(refresh, name)

    def logged_in(self, name, password):
        attempt, reply = self.step("login", name)
        if reply[0] == "bind":
            code = 0 if password == PASSWORD else 49

            def ask(server):
                self.run.over_a_line(server, "bind", result(ldap.BOUND, code))
                return ("result", attempt, "wrong" if code else "right")
            number, _ = self.over_servers(attempt, ask)
            if self.daemon.entry(number)[2][0] == "result":
                return "%s online %d" % ("wrong" if code else "accepted", number)
        _, reply = self.step("look", name)
        if reply[0] == "nohash":
            return "nohash"
        number, reply = self.step("guess", name, reply[1], "right" if password == PASSWORD else "wrong")
        return "%s offline %d" % (reply[0], number)

    def carry_out(self, words):
        self.has_failed = False
        if words[0] == "user":
            self.user(words[1])
        elif words[0] == "login":
            self.login(*words[1:])
        else:
            number, _ = self.step(words[0])
            self.tell("done %d" % number)
        if self.has_failed:
            raise WriteFault

    def requests_taken(self):
        """Each request once its frame is whole, and then how the input ended."""
        sent = [(words, frame_of(words)) for words in self.case["sent"]]
        ends, total = [], 0
        for _, frame in sent:
            total += len(frame)
            ends.append(total)
        taken, at = 0, 0
        while True:
            while at < len(sent) and ends[at] <= taken:
                yield sent[at][0]
                at += 1
            if self.run.fails("take"):
                yield "ReadFault"
            if taken == total:
                yield "Closed"
            taken = min(total, taken + self.case["takes"])

    def serve(self):
        try:
            for words in self.requests_taken():
                if isinstance(words, str):
                    return words
                self.carry_out(words)
                if words[0] == "stop":
                    return "Stopped"
        except WriteFault:
            return "WriteFault"
        except JournalFull as full:
            for number in list(self.leads):
                self.step("abandon", number)
            return "JournalFull(%s)" % full


def frame_of(words):
    def text(word):
        return len(word).to_bytes(2, "big") + word.encode()
    commands = {"user": 1, "login": 16, "offline": 33, "stop": 35}
    fields = [text(word) for word in words[1:]] + ([text("")] if words[0] == "login" and len(words) == 2 else [])
    body = bytes([commands[words[0]]]) + b"".join(fields)
    return len(body).to_bytes(4, "big") + body


def name_of_run(trouble):
    kind = trouble[0]
    if kind == "none":
        return "nothing fails"
    if kind == "cut":
        return "cut behind %d" % trouble[1]
    if kind == "byte":
        return "byte %d is %d" % trouble[1]
    if kind == "others":
        return "messages of another id without end"
    return "%s %d%s" % (kind, trouble[1], "" if trouble[1] == trouble[2] else " and on")


def line_of_entry(entry):
    number, moment, event, reply = entry
    spelled = " ".join(str(word) for word in event)
    if event[0] == "ask":
        spelled = "ask user:" + event[1]
    return "  %d %d %s %s" % (number, moment, spelled, " ".join(str(word) for word in reply))


def play(case, trouble):
    session = Session(case, trouble)
    end = session.serve()
    lines, left = ["- " + name_of_run(trouble)], session.written
    while len(left) >= 4 and len(left) >= 4 + int.from_bytes(left[:4], "big"):
        length = int.from_bytes(left[:4], "big")
        lines.append("told " + left[4:4 + length].decode())
        left = left[4 + length:]
    if left:
        lines.append("part " + left.hex())
    asked = "asked " + ", ".join(session.run.asked)
    lines += ["end " + end, asked, "faults %d" % session.run.faults]
    return lines + [line_of_entry(entry) for entry in session.daemon.entries]


def new_case():
    return {"sent": [], "moments": [], "servers": 0, "limit": 1000000, "takes": 4096, "puts": 65536, "receives": 4096, "runs": []}


def take_line(case, words):
    word, rest = words[0], words[1:]
    if word == "conf" and rest[0] == "ldap_uri":
        case["servers"] = len(rest) - 2
    elif word == "conf" and rest[0] == "journal_limit":
        case["limit"] = int(rest[2])
    elif word == "ask":
        case["sent"].append(rest)
    elif word == "moments":
        case["moments"] += [int(moment) for moment in rest]
    elif word in ("takes", "puts", "receives"):
        case[word] = int(rest[0])
    elif word in ("each", "from"):
        case["runs"] += [(rest[0], number, number if word == "each" else 1 << 64) for number in range(1, int(rest[1]) + 1)]
    elif word == "cut":
        case["runs"] += [("cut", length) for length in range(int(rest[0]))]
    elif word == "byte":
        case["runs"].append(("byte", (int(rest[0]), int(rest[1]))))
    elif word in ("none", "others"):
        case["runs"].append((word,))


def main():
    case = new_case()
    with open(sys.argv[1], encoding="ascii") as text:
        lines = text.read().split("\n")
    for line in lines + ["== "]:
        if line.startswith("== "):
            for trouble in case["runs"]:
                print("\n".join(play(case, trouble)))
            case = new_case()
            if line != "== ":
                print(line)
        elif line:
            take_line(case, line.split())


if __name__ == "__main__":
    main()
