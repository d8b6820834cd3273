"""The table of host/bench/measure: what was found, and how it stands to the goals."""
import statistics

from systems import RULES, Floor, Ours, Unscd, say

# What was asked, as the titles of the table say.
FILLED, BURST_CLIENTS = 10000, 32
LOOPS, LOGIN_LOOPS = (1, 4, 16), (1, 4)
# Readings of which the greatest is this many times the least are told of.
UNEVEN = 1.5


class Results:
    """Readings by rows and systems. `others` has the share of the processors that other work had, loop by loop, and `left` how
    many seconds there are yet to run loops again."""

    def __init__(self, left):
        self.found, self.remarks, self.others, self.left = {}, {}, [], left

    def note(self, row, system, value, remark=""):
        say("%s, %s: %.3g%s" % (row, system.name, value, remark and ", " + remark))
        self.found.setdefault(row, {}).setdefault(system.name, []).append(value)
        self.remarks[row, system.name] = remark

    def values(self, row, name):
        return self.found.get(row, {}).get(name, [])

    def median(self, row, name):
        values = self.values(row, name)
        return statistics.median(values) if values else None


class Table:
    """What was found, by rows: a title, how many digits, and the goal with whether it is met."""

    def __init__(self, systems, results, sizes):
        """`sizes` has, for each number of users, how many of them were known."""
        self.names, self.results, self.sizes, self.rows = [system.name for system in systems], results, sizes, []
        self.fill()

    def value(self, row, name=Ours.name):
        return self.results.median(row, name)

    def add(self, row, title, digits, goal="", is_met=lambda ours: None):
        values = {name: self.value(row, name) for name in self.names}
        if any(value is not None for value in values.values()):
            ours = values.get(Ours.name)
            self.rows.append({"row": row, "title": title, "digits": digits, "values": values, "goal": goal,
                              "readings": {name: self.results.values(row, name) for name in self.names},
                              "remarks": {name: self.results.remarks.get((row, name), "") for name in self.names},
                              "met": None if ours is None or not goal else is_met(ours)})

    def times(self, row, name, factor, is_least):
        """Whether this daemon has so many times what that system has; none where it was not measured."""
        other = self.value(row, name)
        if other is None:
            return None
        return lambda ours: ours >= factor * other if is_least else ours <= factor * other

    def within(self, row, *bounds):
        """Of bounds as `times` takes them: whether all of them that were measured are kept."""
        kept = [bound for bound in (self.times(row, *bound) for bound in bounds) if bound]
        return lambda ours: all(bound(ours) for bound in kept) if kept else None

    def fill(self):
        shares = {1: (0.6, 1, "60 % of the floor, above unscd"), 4: (0.5, 2, "50 % of the floor, 2 times unscd"),
                  16: (0.5, 4, "50 % of the floor, 4 times unscd")}
        for n in LOOPS:
            floor, unscd, goal = shares[n]
            self.add("warm %d" % n, "warm names a second, %d client%s" % (n, "" if n == 1 else "s"), 0, goal,
                     self.within("warm %d" % n, (Floor.name, floor, True), (Unscd.name, unscd, True)))
        for n in LOOPS:
            self.add("p99 %d" % n, "of them 99 in 100 within, %d client%s, us" % (n, "" if n == 1 else "s"), 1)
        for n in LOOPS:
            self.add("anew %d" % n, "a connection for each, %d client%s, a second" % (n, "" if n == 1 else "s"), 0)
        self.add("processor", "processor time of a warm name, us", 2, "at most 2 times the floor",
                 self.within("processor", (Floor.name, 2, False)))
        self.add("cold", "cold name, p50, ms", 2, "at most 0.3", lambda ours: ours <= 0.3)
        self.add("burst", "searches for %d clients at one uncached name" % BURST_CLIENTS, 0, "1", lambda ours: ours == 1)
        self.add("start", "start to first answer, ms", 1, "at most 20", lambda ours: ours <= 20)
        self.add("start with a store", "the same with a new store, ms", 1, "at most 120", lambda ours: ours <= 120)
        self.add("kept start", "the same with %s kept users, ms" % "{:,}".format(FILLED), 1, "at most 120", lambda ours: ours <= 120)
        self.add("memory", "Pss, MiB, after %s users" % "{:,}".format(FILLED), 1, "at most 16", lambda ours: ours <= 16)
        self.add("asked", "and so many questions", 0)
        for n in LOGIN_LOOPS:
            self.add("login %d" % n, "logins a second by a bind, %d client%s" % (n, "" if n == 1 else "s"), 0)
        self.add("first login", "the first login with the directory gone, ms", 1)
        self.add("login by hash", "logins a second by what was kept, %d clients" % LOGIN_LOOPS[-1], 0)
        self.add("check", "account check, %d rules, p50, us" % RULES, 1)
        floor = self.value("processor", Floor.name)
        self.add("check processor", "processor time of it, us", 1, "20 beside the floor's",
                 lambda ours: None if floor is None else ours - floor <= 20)
        self.add("silent first", "first old answer, the directory silent, ms", 1, "at most 6,500", lambda ours: ours <= 6500)
        self.add("silent next", "the next ones, p50, ms", 3, "at most 50", lambda ours: ours <= 50)
        for clients in (1, 4):
            self.add_sizes(clients)
        for users, known in self.sizes.items():
            self.add("size memory %d" % users, "Pss, MiB, %s" % users_text(users, known), 1)

    def add_sizes(self, clients):
        least = min(self.sizes, default=0)
        first = self.value("size p99 %d %d" % (least, clients))
        for users, known in self.sizes.items():
            of_these = "%s, %d client%s" % (users_text(users, known), clients, "" if clients == 1 else "s")
            self.add("size %d %d" % (users, clients), "warm names a second, " + of_these, 0)
            self.add("size p50 %d %d" % (users, clients), "half of them within, us", 1)
            self.add("size p99 %d %d" % (users, clients), "99 in 100 within, us", 1,
                     "" if users == least else "1.5 times that of %s" % "{:,}".format(least),
                     lambda ours: None if first is None else ours <= 1.5 * first)

    def cell(self, row, name):
        text = number_text(row["values"][name], row["digits"])
        return text + ", " + row["remarks"][name] if row["remarks"][name] else text

    def lines(self):
        yield "| | %s | of the floor | goal | |" % " | ".join(self.names)
        yield "|---|%s---|---|---|" % ("---|" * len(self.names))
        for row in self.rows:
            ours, floor = row["values"].get(Ours.name), row["values"].get(Floor.name)
            yield "| %s | %s | %s | %s | %s |" % (
                row["title"], " | ".join(self.cell(row, name) for name in self.names),
                "%.2f" % (ours / floor) if ours and floor else "", row["goal"], {True: "met", False: "not met", None: ""}[row["met"]])

    def uneven(self):
        """The readings that differ much from round to round, so that their median says little."""
        for row in self.rows:
            for name, values in row["readings"].items():
                if len(values) > 1 and max(values) > UNEVEN * min(values):
                    yield "- %s, %s: %s to %s" % (row["title"], name, *(number_text(end(values), row["digits"]) for end in (min, max)))


def users_text(users, known):
    return "{:,} users{}".format(known, "" if known == users else " (of {:,})".format(users))


def number_text(value, digits):
    return "–" if value is None else "{:,.{}f}".format(value, digits)
