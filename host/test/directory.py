#!/usr/bin/env python3
"""The directory of the host's tests: users, nested groups, a host, services and access rules.

    directory.py [--members N] [--crowd N] [--rules N] [BASE]

prints it as LDIF; the module is also what the tests' stand-in for a daemon answers from. The places are
those that the daemon asks: users under cn=users,cn=accounts, groups under cn=groups,cn=accounts, hosts
under cn=computers,cn=accounts, rules under cn=hbac, services under cn=hbacservices,cn=hbac.
"""
import argparse
import base64
import sys

BASE = "dc=test"
HOST = "client.test"


class User:
    def __init__(self, name, uid, gid, password, gecos="", shell="/bin/sh"):
        self.name, self.uid, self.gid, self.password = name, uid, gid, password
        self.gecos, self.shell, self.home = gecos, shell, "/home/" + name


class Group:
    def __init__(self, name, gid, users=(), groups=()):
        self.name, self.gid, self.users, self.groups = name, gid, list(users), list(groups)


class Rule:
    def __init__(self, name, groups, services):
        self.name, self.groups, self.services = name, groups, services


class Directory:
    """`members` users m0, m1, .. are all in the group `crowd`, or as many of them as `crowd` says. Of more than one rule the
    last lets them in by sshd, and those between let a group in by a service that nobody asks for."""

    def __init__(self, members=2000, rules=1, crowd=None):
        self.users = [
            User("alice", 10001, 10001, "wonderland", "Alice Liddell", "/bin/bash"),
            User("bob", 10002, 10002, "builder"),
            User("carol", 10003, 10003, "christmas", "Carol: research \\ development, room 5"),
            User("dave", 10004, 10004, "dreams"),
            User("two-lines", 10005, 10005, "lines", "one\nroot::0:0::/:/bin/sh"),
            User("toor", 0, 0, "too rich"),
            User("comma,name", 10006, 10006, "comma"),
        ] + [User("m%d" % i, 20000 + i, 20000, "pw-m%d" % i) for i in range(members)]
        self.groups = [
            Group("alice", 10001, ["alice"]),
            Group("crew", 30001, ["alice", "bob"]),
            Group("engineers", 30002, ["carol"], ["crew"]),
            Group("everyone", 30003, ["dave", "comma,name"], ["engineers"]),
            Group("crowd", 30004, ["m%d" % i for i in range(members if crowd is None else min(crowd, members))]),
            Group("zero", 0, ["alice"]),
        ]
        self.rules = [Rule("engineers_log_in", ["engineers"], ["sshd", "login", "su-l"])]
        self.rules += [Rule("more%d" % i, ["crew"], ["other"]) for i in range(rules - 2)]
        self.rules += [Rule("the_crowd_too", ["crowd"], ["sshd"])] if rules > 1 else []
        self.services = ["sshd", "login", "su-l"] + (["other"] if rules > 2 else [])

    def user(self, name):
        return next((u for u in self.users if u.name == name), None)

    def group(self, name):
        return next((g for g in self.groups if g.name == name), None)

    def members(self, group):
        """All users of a group, also by the groups in it, by name."""
        names, seen, left = set(), set(), [group]
        while left:
            one = left.pop()
            if one.name not in seen:
                seen.add(one.name)
                names.update(one.users)
                left.extend(self.group(g) for g in one.groups)
        return sorted(names)

    def groups_of(self, name):
        return sorted((g for g in self.groups if name in self.members(g)), key=lambda g: g.name)

    def rule_for(self, name, service):
        held = {g.name for g in self.groups_of(name)}
        return next((r for r in self.rules if service in r.services and held & set(r.groups)), None)


def print_ldif(directory, base, out):
    accounts = "cn=accounts," + base
    users, groups = "cn=users," + accounts, "cn=groups," + accounts
    services = "cn=hbacservices,cn=hbac," + base

    def line(attribute, value):
        plain = value and all(" " <= c <= "~" for c in value) and value[0] not in " :<" and value[-1] != " "
        if plain:
            out.write("%s: %s\n" % (attribute, value))
        else:
            out.write("%s:: %s\n" % (attribute, base64.b64encode(value.encode()).decode()))

    def entry(dn, *pairs):
        line("dn", dn)
        for attribute, value in pairs:
            line(attribute, value)
        out.write("\n")

    def user_dn(name):
        return "uid=%s,%s" % (name.replace(",", "\\,"), users)

    def classes(*names):
        return [("objectClass", name) for name in names]

    label = base.split(",")[0].split("=")[1]
    entry(base, *classes("dcObject", "organization"), ("dc", label), ("o", label))
    for dn in (accounts, users, groups, "cn=computers," + accounts, "cn=hbac," + base, services):
        entry(dn, *classes("applicationProcess"), ("cn", dn.split(",")[0].split("=")[1]))
    for u in directory.users:
        gecos = [("gecos", u.gecos)] if u.gecos else []
        entry(user_dn(u.name), *classes("account", "posixAccount"), ("uid", u.name), ("cn", u.name),
              ("uidNumber", str(u.uid)), ("gidNumber", str(u.gid)), ("homeDirectory", u.home),
              ("loginShell", u.shell), *gecos, ("userPassword", u.password))
    for g in directory.groups:
        entry("cn=%s,%s" % (g.name, groups), *classes("groupOfNames", "posixGroup"), ("cn", g.name),
              ("gidNumber", str(g.gid)), *[("member", user_dn(n)) for n in g.users],
              *[("member", "cn=%s,%s" % (n, groups)) for n in g.groups])
    entry("fqdn=%s,cn=computers,%s" % (HOST, accounts), *classes("ipaHost"), ("fqdn", HOST))
    for s in directory.services:
        entry("cn=%s,%s" % (s, services), *classes("ipaHBACService"), ("cn", s))
    for r in directory.rules:
        entry("cn=%s,cn=hbac,%s" % (r.name, base), *classes("ipaHBACRule"), ("cn", r.name),
              ("ipaEnabledFlag", "TRUE"), ("accessRuleType", "allow"), ("hostCategory", "all"),
              *[("memberUser", "cn=%s,%s" % (g, groups)) for g in r.groups],
              *[("memberService", "cn=%s,%s" % (s, services)) for s in r.services])


if __name__ == "__main__":
    parser = argparse.ArgumentParser()
    parser.add_argument("--members", type=int, default=2000)
    parser.add_argument("--crowd", type=int)
    parser.add_argument("--rules", type=int, default=1)
    parser.add_argument("base", nargs="?", default=BASE)
    words = parser.parse_args()
    print_ldif(Directory(words.members, words.rules, words.crowd), words.base, sys.stdout)
