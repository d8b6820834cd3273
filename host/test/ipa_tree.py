#!/usr/bin/env python3
"""The tests' directory as a FreeIPA server has it, for 389 Directory Server.

    ipa_tree.py tree [BASE]    prints its entries as LDIF
    ipa_tree.py schema         prints the attributes and classes that 389 does not have, as its 99user.ldif

Beside directory.py's entries there are a compat tree, in which each account stands a second time; access for bound readers
alone to members, hosts and rules; rules that are named by ipaUniqueID; a service account, and disabled accounts.
"""
import io
import os
import re
import sys
import time

import directory

DAY = 86400
LOCKED = ("nsAccountLock: TRUE",)
ANYONE = "objectClass || cn || uid || uidNumber || gidNumber || homeDirectory || gecos || loginShell"


def generalized(moment):
    return time.strftime("%Y%m%d%H%M%SZ", time.gmtime(moment))


def disabled_accounts():
    """Names, and the lines that disable them or do not."""
    today = int(time.time()) // DAY
    return (
        ("locked", LOCKED),
        ("unlocked", ("nsAccountLock: FALSE",)),
        ("shadow-past", ("shadowExpire: %d" % (today - 3),)),
        ("shadow-never", ("shadowExpire: -1",)),
        ("shadow-later", ("shadowExpire: %d" % (today + 900),)),
        ("principal-past", ("krbPrincipalExpiration: " + generalized(time.time() - 900),)),
        ("principal-later", ("krbPrincipalExpiration: " + generalized(time.time() + 900 * DAY),)),
        ("shut-out", ("pwdAccountLockedTime: 000001010000Z",)),
    )


def access_lines(base):
    """What a FreeIPA server lets whom read."""
    places = ["cn=users,cn=accounts," + base, "cn=groups,cn=accounts," + base, "cn=compat," + base]
    lines = ['aci: (target="ldap:///%s")(targetattr="%s")(version 3.0; acl "anyone"; allow (read, search, compare) '
             'userdn="ldap:///anyone";)' % (place, ANYONE) for place in places]
    lines.append('aci: (targetattr != "userPassword")(version 3.0; acl "bound"; allow (read, search, compare) userdn="ldap:///all";)')
    return lines


def account(dn, name, number, lines=(), password=""):
    return ["dn: " + dn, *("objectClass: " + c for c in ("account", "posixAccount", "shadowAccount", "ipaTestAccount")),
            "uid: " + name, "cn: " + name, "uidNumber: %d" % number, "gidNumber: %d" % number, "homeDirectory: /home/" + name,
            "loginShell: /bin/sh", *lines, *(["userPassword: " + password] if password else []), ""]


def compat_tree(tree, base):
    compat = "cn=compat," + base
    lines = []
    for name in ("compat", "users", "groups"):
        lines += ["dn: " + (compat if name == "compat" else "cn=%s,%s" % (name, compat)), "objectClass: nsContainer", "cn: " + name, ""]
    for user in tree.users:
        if re.fullmatch("[a-z]+", user.name):
            lines += account("uid=%s,cn=users,%s" % (user.name, compat), user.name, user.uid)
    for group in tree.groups:
        lines += ["dn: cn=%s,cn=groups,%s" % (group.name, compat), "objectClass: nsContainer", "objectClass: posixGroup",
                  "cn: " + group.name, "gidNumber: %d" % group.gid,
                  *("memberUid: " + name for name in tree.members(group) if re.fullmatch("[a-z]+", name)), ""]
    return lines


def print_tree(base, out):
    tree = directory.Directory(50)
    text = io.StringIO()
    directory.print_ldif(tree, base, text)
    entries = text.getvalue()
    # FreeIPA names rules by a number of their own.
    entries = re.sub(r"dn: cn=((?!hbacservices)\w+),cn=hbac,(.*)\n", r"dn: ipaUniqueID=11-\1,cn=hbac,\2\nipaUniqueID: 11-\1\n", entries)
    first, rest = entries.split("\n\n", 1)
    lines = [first, *access_lines(base), "", rest]
    lines += ["dn: cn=sysaccounts," + base, "objectClass: nsContainer", "cn: sysaccounts", ""]
    lines += ["dn: uid=sys,cn=sysaccounts," + base, "objectClass: account", "objectClass: simpleSecurityObject", "uid: sys",
              "userPassword: service \"password\" \\", ""]
    for number, (name, disabling) in enumerate(disabled_accounts()):
        lines += account("uid=%s,cn=users,cn=accounts,%s" % (name, base), name, 41000 + number, disabling, "pw-" + name)
    out.write("\n".join(lines + compat_tree(tree, base)) + "\n")


def print_schema(out):
    with open(os.path.join(os.path.dirname(os.path.abspath(__file__)), "ipa.schema"), encoding="ascii") as source:
        text = re.sub(r"\n[ \t]+", " ", source.read())
    out.write("dn: cn=schema\n")
    for kind, definition in re.findall(r"^(attributetype|objectclass) (.*)$", text, re.M):
        if "'memberOf'" not in definition:
            out.write("%s: %s\n" % ({"attributetype": "attributeTypes", "objectclass": "objectClasses"}[kind],
                                    definition.replace("MAY ( ipaEnabledFlag", "MAY ( ipaUniqueID $ ipaEnabledFlag")))
    for number, (name, syntax) in enumerate((("ipaUniqueID", 15), ("krbPrincipalExpiration", 24), ("pwdAccountLockedTime", 15))):
        out.write("attributeTypes: ( 1.1.2.1.%d NAME '%s' SYNTAX 1.3.6.1.4.1.1466.115.121.1.%d )\n" % (30 + number, name, syntax))
    out.write("objectClasses: ( 1.1.2.2.30 NAME 'ipaTestAccount' SUP top AUXILIARY MAY ( krbPrincipalExpiration $ pwdAccountLockedTime ) )\n")


if __name__ == "__main__":
    if sys.argv[1:2] == ["schema"]:
        print_schema(sys.stdout)
    else:
        print_tree((sys.argv[2:] or [directory.BASE])[0], sys.stdout)
