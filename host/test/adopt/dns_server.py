#!/usr/bin/env python3
"""dns_server.py ADDRESS READY: answers questions for service records at port 53 of this address; READY is a file that is
made once it listens. `_ldap._tcp.example.test` has four servers, `_none._tcp.example.test` says that there is no such service."""

import socket
import struct
import sys
from pathlib import Path

# Priority, weight, port, target; not in the order in which they are to be asked.
RECORDS = {
    "_ldap._tcp.example.test": [
        (20, 0, 389, "last.example.test"),
        (10, 5, 1389, "second.example.test"),
        (10, 60, 389, "first.example.test"),
        (10, 5, 389, "third.example.test"),
    ],
    "_none._tcp.example.test": [(0, 0, 0, "")],
}


def encoded(name):
    labels = [label.encode() for label in name.split(".") if label]
    return b"".join(bytes([len(label)]) + label for label in labels) + b"\0"


def question_of(message):
    labels, at = [], 12
    while message[at]:
        labels.append(message[at + 1 : at + 1 + message[at]].decode())
        at += message[at] + 1
    return ".".join(labels), message[12 : at + 5]


def reply_to(message):
    name, question = question_of(message)
    records = RECORDS.get(name.lower(), [])
    code = 0 if records else 3
    answers = b""
    for priority, weight, port, target in records:
        data = struct.pack("!HHH", priority, weight, port) + encoded(target)
        answers += b"\xc0\x0c" + struct.pack("!HHIH", 33, 1, 60, len(data)) + data
    head = message[:2] + struct.pack("!HHHHH", 0x8580 | code, 1, len(records), 0, 0)
    return head + question + answers


def main():
    address, ready = sys.argv[1:]
    server = socket.socket(socket.AF_INET, socket.SOCK_DGRAM)
    server.bind((address, 53))
    Path(ready).touch()
    while True:
        message, sender = server.recvfrom(4096)
        server.sendto(reply_to(message), sender)


main()
