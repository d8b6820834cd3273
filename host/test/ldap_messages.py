"""The bytes of LDAP (RFC 4511) that the tests' own directories speak: what a client asks is read, what a server
answers is written, and a filter is tried on the entries of an LDIF text."""
import base64

BIND, UNBIND, SEARCH = 0x60, 0x42, 0x63
BOUND, ENTRY, DONE, REFERENCE = 0x61, 0x64, 0x65, 0x73


def element(tag, contents):
    size = len(contents)
    if size < 128:
        return bytes([tag, size]) + contents
    length = size.to_bytes((size.bit_length() + 7) // 8, "big")
    return bytes([tag, 0x80 | len(length)]) + length + contents


def integer(value, tag=2):
    return element(tag, value.to_bytes(value.bit_length() // 8 + 1, "big"))


def text(value, tag=4):
    return element(tag, value if isinstance(value, bytes) else value.encode())


def message(number, operation):
    return element(0x30, integer(number) + operation)


def result(tag, code):
    return element(tag, integer(code, 10) + text("") + text(""))


def entry(dn, attributes):
    """`attributes` is a list of names with their values."""
    rows = [element(0x30, text(name) + element(0x31, b"".join(text(v) for v in values))) for name, values in attributes]
    return element(ENTRY, text(dn) + element(0x30, b"".join(rows)))


def split(data, at=0):
    """The tag, the contents and the end of the element at a place; None where it is not whole."""
    if len(data) < at + 2:
        return None
    tag, size, at = data[at], data[at + 1], at + 2
    if size & 0x80:
        count = size & 0x7F
        if len(data) < at + count:
            return None
        size, at = int.from_bytes(data[at:at + count], "big"), at + count
    if len(data) < at + size:
        return None
    return tag, data[at:at + size], at + size


def elements(data):
    found, at = [], 0
    while at < len(data):
        tag, contents, at = split(data, at)
        found.append((tag, contents))
    return found


def read_request(contents):
    """The number, the tag and the parts of a request, given what is inside its outer element."""
    number, operation = elements(contents)[:2]
    tag, inside = operation
    return int.from_bytes(number[1], "big"), tag, elements(inside) if tag in (BIND, SEARCH) else []


def entries_of(ldif):
    """The entries of an LDIF text: a name with a list of attributes and their values, as bytes."""
    found = []
    for record in ldif.strip().split("\n\n"):
        attributes, dn = {}, ""
        for line in record.split("\n"):
            name, _, value = line.partition(":")
            value = base64.b64decode(value[1:]) if value.startswith(":") else value[1:].encode()
            if name == "dn":
                dn = value.decode()
            else:
                attributes.setdefault(name, []).append(value)
        found.append((dn, list(attributes.items())))
    return found


def matches(filter_element, attributes):
    tag, contents = filter_element
    held = {name.lower(): values for name, values in attributes}
    if tag == 0xA0:
        return all(matches(part, attributes) for part in elements(contents))
    if tag == 0xA1:
        return any(matches(part, attributes) for part in elements(contents))
    if tag == 0x87:
        return contents.decode().lower() in held
    if tag == 0xA3:
        name, value = (part for _, part in elements(contents))
        return value.lower() in (one.lower() for one in held.get(name.decode().lower(), ()))
    return False


def equalities(filter_element):
    """The values that a filter names, by attribute."""
    tag, contents = filter_element
    if tag in (0xA0, 0xA1):
        named = {}
        for part in elements(contents):
            named.update(equalities(part))
        return named
    if tag == 0xA3:
        name, value = (part.decode("utf-8", "replace") for _, part in elements(contents))
        return {name: value}
    return {}


def is_at_or_under(dn, base, scope):
    if scope == 0 or dn.lower() == base.lower():
        return dn.lower() == base.lower() and scope != 1
    return dn.lower().endswith("," + base.lower()) if base else True


def answers(entries, number, tag, parts):
    """What an honest server answers to a request: its messages, in order."""
    if tag == BIND:
        dn, password = parts[1][1].decode("utf-8", "replace"), parts[2][1]
        held = next((dict(a) for d, a in entries if d.lower() == dn.lower()), {})
        code = 0 if not dn and not password or password in held.get("userPassword", ()) else 49
        return [message(number, result(BOUND, code))]
    base, scope = parts[0][1].decode("utf-8", "replace"), parts[1][1][-1]
    found = [message(number, entry(dn, [pair for pair in attributes if pair[0] != "userPassword"]))
             for dn, attributes in entries if is_at_or_under(dn, base, scope) and matches(parts[6], attributes)]
    return found + [message(number, result(DONE, 0))]
