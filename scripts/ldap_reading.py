"""Reads the messages that a directory sends to a client (RFC 4511): lengths definite and of at most four octets behind the first, tags
of one octet. It knows nothing of the program. Where bytes are no message, the place told is that of the first element, in reading
order, that is wrong, too long for its parent or of another tag than expected, or the end of the parent where one is missing."""

LONGEST = 16 << 20
ENTRY, BOUND, DONE, REFERENCE = 0x64, 0x61, 0x65, 0x73
# Binds, unbinds and searches, of which no case sends a client one.
REQUESTS = (0x60, 0x42, 0x63)


class Wrong(Exception):
    """Bytes that have no form, by the place that shows it, counted from the message's first byte."""


def header(data, at):
    """Where the contents of the element at this place begin and end; None where the bytes end before that is told."""
    if at + 1 >= len(data):
        return None
    first = data[at + 1]
    count = 0 if first < 0x80 else first & 0x7F
    if first == 0x80 or count > 4:
        raise Wrong(at)
    begin = at + 2 + count
    if begin > len(data):
        return None
    return begin, begin + (int.from_bytes(data[at + 2:begin], "big") if count else first)


class Contents:
    """The elements within an element, read one by one."""

    def __init__(self, data, begin, end):
        self.data, self.at, self.end = data, begin, end

    def take(self, *tags):
        """The next element's place, tag and contents; it has one of these tags, where any are named."""
        at = self.at
        if at >= self.end:
            raise Wrong(self.end)
        tag = self.data[at]
        told = header(self.data[:self.end], at)
        if tag & 0x1F == 0x1F or told is None or told[1] > self.end or tags and tag not in tags:
            raise Wrong(at)
        self.at = told[1]
        return at, tag, Contents(self.data, *told)

    def bytes(self):
        return self.data[self.at:self.end]

    def is_read(self):
        return self.at == self.end

    def ends(self):
        if not self.is_read():
            raise Wrong(self.at)

    def rest(self):
        """Further elements, which are read over."""
        while not self.is_read():
            self.take()


def number(contents, tag, most):
    at, _, body = contents.take(tag)
    value = int.from_bytes(body.bytes(), "big", signed=True)
    if not 1 <= len(body.bytes()) <= 8 or not 0 <= value <= most:
        raise Wrong(at)
    return value


def read_entry(contents):
    """Its name, and each attribute with its values."""
    name, attributes = contents.take(4)[2].bytes(), []
    listed = contents.take(0x30)[2]
    contents.ends()
    while not listed.is_read():
        attribute = listed.take(0x30)[2]
        kind, values = attribute.take(4)[2].bytes(), attribute.take(0x31)[2]
        attribute.ends()
        attributes.append((kind, []))
        while not values.is_read():
            attributes[-1][1].append(values.take(4)[2].bytes())
    return name, attributes


def read_result(contents):
    """Its code."""
    code = number(contents, 0x0A, 2 ** 32 - 1)
    contents.take(4)
    contents.take(4)
    contents.rest()
    return code


def read_operation(tag, contents):
    """What is read of an operation; of one that is unknown nothing is."""
    assert tag not in REQUESTS
    if tag == ENTRY:
        return read_entry(contents)
    if tag in (BOUND, DONE):
        return read_result(contents)
    return None


def read_message(data):
    """The id, the tag and the contents of the first message, and how many bytes it takes; None while more of it has to come."""
    if not data:
        return None
    if data[0] != 0x30:
        raise Wrong(0)
    try:
        told = header(data, 0)
    except Wrong:
        raise Wrong(1) from None
    if told is None:
        return None
    begin, end = told
    if end - begin > LONGEST:
        raise Wrong(1)
    if end > len(data):
        return None
    whole = Contents(data, begin, end)
    told_id = number(whole, 2, 2 ** 31 - 1)
    _, tag, contents = whole.take()
    operation = read_operation(tag, contents)
    whole.rest()
    return told_id, tag, operation, end
