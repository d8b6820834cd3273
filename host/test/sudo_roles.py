#!/usr/bin/env python3
"""Roles by which the word `sudo` is compared with sudo itself: who are named, and in which order rules come.

    sudo_roles.py ldif            the directory: the users, their groups and the roles
    sudo_roles.py passwd|group|netgroup   the same users, groups and netgroups, as files of /etc
    sudo_roles.py users           the names of the users, one a line
    sudo_roles.py compare FOLDER  for each user the roles in FOLDER/ours.USER and FOLDER/sudo.USER, one a line; prints
                                  a line 'same ROLE', 'differs ROLE: ..' or 'FAILED ROLE: ..' for each role, and one
                                  for the order. A difference that KNOWN does not have, or that is gone, has failed.
"""
import sys
from pathlib import Path

BASE = "dc=test"
# name, number, own group
USERS = [("alice", 1000, 1000), ("bob", 1001, 2001), ("carol", 1002, 1002)]
# name, number, users
GROUPS = [("alice", 1000, []), ("staff", 2001, ["alice"]), ("night", 2002, ["carol"]), ("carol", 1002, [])]
# name, triples, members
NETGROUPS = [
    ("trusted", ["(,alice,)"], []),
    ("on_h1", ["(h1,alice,)"], []),
    ("elsewhere", ["(,alice,example.com)"], []),
    ("others", ["(,bob,)", "(,dave,)"], []),
    ("around", [], ["trusted"]),
    ("everyone", ["(,,)"], []),
    ("nobody", ["(,-,)"], []),
]
# name, order, sudoUser values
ROLES = [
    ("u-name", None, ["alice"]),
    ("u-other-case", None, ["Alice"]),
    ("u-two", None, ["bob", "carol"]),
    ("u-all", None, ["ALL"]),
    ("u-all-small", None, ["all"]),
    ("u-number", None, ["#1000"]),
    ("u-number-zeros", None, ["#01000"]),
    ("u-number-other", None, ["#1001"]),
    ("u-hash-name", None, ["#alice"]),
    ("g-name", None, ["%staff"]),
    ("g-other-case", None, ["%Staff"]),
    ("g-own", None, ["%alice"]),
    ("g-number", None, ["%#2001"]),
    ("g-number-zeros", None, ["%#02001"]),
    ("g-number-own", None, ["%#1000"]),
    ("g-number-other", None, ["%#2002"]),
    ("g-none", None, ["%nowhere"]),
    ("x-name", None, ["%:staff"]),
    ("x-number", None, ["%:#2001"]),
    ("n-user", None, ["+trusted"]),
    ("n-host", None, ["+on_h1"]),
    ("n-domain", None, ["+elsewhere"]),
    ("n-others", None, ["+others"]),
    ("n-member", None, ["+around"]),
    ("n-everyone", None, ["+everyone"]),
    ("n-nobody", None, ["+nobody"]),
    ("n-none", None, ["+nowhere"]),
    ("r-name", None, ["ALL", "!alice"]),
    ("r-name-first", None, ["!alice", "ALL"]),
    ("r-other", None, ["ALL", "!bob"]),
    ("r-number", None, ["ALL", "!#1000"]),
    ("r-group", None, ["ALL", "!%staff"]),
    ("r-group-number", None, ["ALL", "!%#2001"]),
    ("r-netgroup", None, ["ALL", "!+trusted"]),
    ("r-all", None, ["alice", "!ALL"]),
    ("r-named-again", None, ["!%staff", "alice"]),
    ("r-alone", None, ["!bob"]),
    ("r-group-twice", None, ["%staff", "!alice", "#1000"]),
    ("o-9", 9, ["alice"]),
    ("o-10", 10, ["alice"]),
    ("o-2", 2, ["alice"]),
    ("o-minus-5", -5, ["alice"]),
    ("o-minus-40", -40, ["alice"]),
    ("o-100", 100, ["ALL"]),
]
# Whom a role names by the word `sudo` and by sudo itself, where they differ, as docs/DESIGN.md says.
KNOWN = {
    "u-number-zeros": (["alice"], []),
    "g-number-zeros": (["alice", "bob"], []),
    "n-domain": (["alice"], []),
    "r-netgroup": (["bob", "carol"], ["alice", "bob", "carol"]),
    "r-all": ([], ["alice"]),
}


def user_dn(name):
    return f"uid={name},cn=users,cn=accounts,{BASE}"


def print_entry(dn, *pairs):
    print(f"dn: {dn}")
    for attribute, value in pairs:
        print(f"{attribute}: {value}")
    print()


def print_ldif():
    def classes(*names):
        return [("objectClass", name) for name in names]

    print_entry(BASE, *classes("dcObject", "organization"), ("o", "test"), ("dc", "test"))
    for place in ("cn=accounts", "cn=users,cn=accounts", "cn=groups,cn=accounts", "ou=netgroups", "ou=sudoers"):
        kind, name = place.split(",")[0].split("=")
        of = "organizationalUnit" if kind == "ou" else "organizationalRole"
        print_entry(f"{place},{BASE}", *classes(of), (kind, name))
    for name, uid, gid in USERS:
        numbers = [("uidNumber", uid), ("gidNumber", gid), ("homeDirectory", f"/home/{name}")]
        print_entry(user_dn(name), *classes("account", "posixAccount"), ("uid", name), ("cn", name), *numbers)
    for name, gid, users in GROUPS:
        members = [("member", user_dn(user)) for user in users] or [("member", "")]
        dn = f"cn={name},cn=groups,cn=accounts,{BASE}"
        print_entry(dn, *classes("groupOfNames", "posixGroup"), ("cn", name), ("gidNumber", gid), *members)
    for name, triples, members in NETGROUPS:
        values = [("nisNetgroupTriple", triple) for triple in triples]
        values += [("memberNisNetgroup", member) for member in members]
        print_entry(f"cn={name},ou=netgroups,{BASE}", *classes("nisNetgroup"), ("cn", name), *values)
    for name, order, users in ROLES:
        values = [("sudoUser", user) for user in users] + [("sudoOrder", order)] * (order is not None)
        rest = [("sudoHost", "ALL"), ("sudoCommand", f"/bin/{name}")]
        print_entry(f"cn={name},ou=sudoers,{BASE}", *classes("sudoRole"), ("cn", name), *values, *rest)


def print_passwd():
    for name, uid, gid in USERS:
        print(f"{name}:x:{uid}:{gid}::/home/{name}:/bin/sh")


def print_group():
    for name, gid, users in GROUPS:
        print(f"{name}:x:{gid}:{','.join(users)}")


def print_netgroup():
    for name, triples, members in NETGROUPS:
        print(" ".join([name, *triples, *members]))


def said(users):
    return ", ".join(users) or "nobody"


def compare(folder):
    def roles_for(side, user):
        return [line for line in (Path(folder) / f"{side}.{user}").read_text().split("\n") if line]

    given = {side: {name: roles_for(side, name) for name, _, _ in USERS} for side in ("ours", "sudo")}
    for role, _, values in ROLES:
        ours, theirs = ([name for name, _, _ in USERS if role in given[side][name]] for side in ("ours", "sudo"))
        what = f"{role} ({' '.join(values)})"
        told = f"{said(ours)}, by sudo {said(theirs)}"
        known = KNOWN.get(role)
        if known == (ours, theirs):
            print(f"differs {what}: {told}")
        elif ours == theirs and known is None:
            print(f"same {what}: {said(ours)}")
        else:
            print(f"FAILED {what}: {told}")
    ordered = {role: order or 0 for role, order, _ in ROLES}
    for name, _, _ in USERS:
        ours, theirs = ([ordered.get(role) for role in given[side][name]] for side in ("ours", "sudo"))
        ours, theirs = (list(dict.fromkeys(orders)) for orders in (ours, theirs))
        print(f"{'same' if ours == theirs else 'FAILED'} order for {name}: {ours}, by sudo {theirs}")


def main(words):
    match words:
        case ["ldif"]:
            print_ldif()
        case ["passwd"]:
            print_passwd()
        case ["group"]:
            print_group()
        case ["netgroup"]:
            print_netgroup()
        case ["users"]:
            print("\n".join(name for name, _, _ in USERS))
        case ["compare", folder]:
            compare(folder)
        case _:
            sys.exit(__doc__)


if __name__ == "__main__":
    main(sys.argv[1:])
