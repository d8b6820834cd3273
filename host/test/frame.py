#!/usr/bin/env python3
"""frame.py SOCKET WORD [TEXT..]: sends one request as the daemon's frames have it, and prints the reply.

WORD is user, uid, group, gid, groups, login, access, void-all, void-user, offline, online or stop. A login whose
password is not among the texts has the first line of standard input. After `stop` it connects once more, so that a
daemon which waits for a connection sees that it is to end."""
import socket
import struct
import sys

COMMANDS = {"user": 1, "uid": 2, "group": 3, "gid": 4, "groups": 5, "login": 16, "access": 17,
            "void-all": 32, "void-user": 32, "offline": 33, "online": 34, "stop": 35}


# The byte that says what is to be void.
KINDS = {"void-all": b"\0", "void-user": b"\1"}


def field(word, text):
    if word in ("uid", "gid"):
        return struct.pack(">I", int(text))
    return struct.pack(">H", len(text.encode())) + text.encode()


def exact(connection, count):
    have = b""
    while len(have) < count:
        more = connection.recv(count - len(have))
        if not more:
            sys.exit("no reply")
        have += more
    return have


def frame(word, *texts):
    """The bytes of a request."""
    body = bytes([COMMANDS[word]]) + KINDS.get(word, b"") + b"".join(field(word, text) for text in texts)
    return struct.pack(">I", len(body)) + body


def main():
    path, word, *texts = sys.argv[1:]
    if word == "login" and len(texts) == 1:
        texts.append(sys.stdin.readline().rstrip("\n"))
    with socket.socket(socket.AF_UNIX) as connection:
        connection.settimeout(20)
        try:
            connection.connect(path)
            connection.sendall(frame(word, *texts))
            length = struct.unpack(">I", exact(connection, 4))[0]
            print(exact(connection, length).decode("utf-8", "replace"))
        except OSError:
            sys.exit("no reply")
    if word == "stop":
        with socket.socket(socket.AF_UNIX) as connection:
            connection.connect_ex(path)


if __name__ == "__main__":
    main()
