#!/usr/bin/env python3
"""failing_daemons.py FILE: what the daemons of a file in the form of crates/sd_hosted/stdin come to whose names begin with
`failing calls: `, by the rules alone. crates/sd_hosted/stdout ends with it, so

    scripts/failing_daemons.py crates/sd_hosted/stdin | diff - <(sed -n '/^== failing calls: /,$p' crates/sd_hosted/stdout)

prints nothing. It knows nothing of the program: which calls are made on the store, and when, and how a daemon ends, are told in
docs/DESIGN.md ("The daemon's store"), the bytes of rows there too ("The keeper"). Each client asks for alice, who is known from the first daemon on."""
import sys

FLUSHES_EVERY = 60
REPLY = "found 3 alice:*:1000:1000::/home/alice:/bin/sh"
STORE_FAULT, DOOR_FAULT = ("store fault", 11), ("door fault", 9)


def text(word):
    return 4 + len(word)


# A head has a version, the next number and the floor. An answer has its number and moment, the key, what was found, and whether it is void.
HEAD = 1 + 4 + 8 + 8
USER = text("alice") + 4 + 4 + text("") + text("/home/alice") + text("/bin/sh") + text("uid=alice,cn=users,cn=accounts,dc=test")
ANSWER = 1 + 8 + 8 + (1 + text("alice")) + (1 + 1 + USER) + 1
KEPT = ["kept 0 %d" % HEAD, "kept 1 %d" % ANSWER]


class Daemon:
    """A daemon, the calls that are made of its doors and its store, and which of them fail."""

    def __init__(self, lines):
        self.failing = {tuple(line.split()[1:]) for line in lines if line.startswith("fail ")}
        self.moments = [int(line.split()[1]) for line in lines if line.startswith("moment ")] or [0]
        self.clients, self.is_silent = lines.count("client"), "silent" in lines
        self.calls, self.readings = {"store": 0, "door": 0}, 0

    def fails(self, whose):
        self.calls[whose] += 1
        return (whose, str(self.calls[whose])) in self.failing

    def now(self):
        self.readings += 1
        return self.moments[min(self.readings, len(self.moments)) - 1]

    def serve(self):
        """How many clients are served, and how the daemon ends."""
        if self.fails("store"):
            return 0, STORE_FAULT
        served, tried, has_failed = 0, self.now(), False
        while True:
            has_failed = self.fails("door")
            if has_failed or served == self.clients:
                break
            served += 1
            moment = self.now()
            if moment - tried >= FLUSHES_EVERY:
                tried = moment
                # One that fails here is tried again in its time.
                self.fails("store")
        is_stored = not self.fails("store")
        return served, DOOR_FAULT if has_failed else ("", 0) if is_stored else STORE_FAULT

    def lines(self):
        served, (said, status) = self.serve()
        told = ["%d: %s" % (client + 1, REPLY) for client in range(served)]
        if self.is_silent:
            told = ["all were told the same" if served in (0, self.clients) else "not all were told the same"]
        return [said] * bool(said) + ["= %d" % status] + told + KEPT


def main():
    with open(sys.argv[1], encoding="ascii") as file:
        daemons = file.read().split("== ")[1:]
    for daemon in daemons:
        name, *lines = daemon.splitlines()
        if name.startswith("failing calls: "):
            print("\n".join(["== " + name] + Daemon(lines).lines()))


if __name__ == "__main__":
    main()
