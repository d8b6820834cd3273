#!/usr/bin/env python3
"""A server that answers each bind with success, and writes down what it could read.

    tls_listener.py ADDRESS PORT CERTIFICATE KEY RECORD [start]

It speaks TLS from the first byte on, or with `start` after a StartTLS request (RFC 4511). It prints `ready` once it listens.
"""
import contextlib
import socket
import ssl
import sys
import threading

address, port, certificate, key, record = sys.argv[1:6]
starts = sys.argv[6:] == ["start"]
context = ssl.SSLContext(ssl.PROTOCOL_TLS_SERVER)
context.load_cert_chain(certificate, key)
BIND, EXTENDED, BIND_DONE, EXTENDED_DONE = 0x60, 0x77, 0x61, 0x78


def note(data):
    with open(record, "ab") as out:
        out.write(data)


def header(data, at):
    """The length of the element at a place, and where its contents begin."""
    length, at = data[at + 1], at + 2
    if length >= 0x80:
        count = length - 0x80
        length, at = int.from_bytes(data[at:at + count], "big"), at + count
    return length, at


def reply(data):
    """Success, in the words of the request's kind; nothing for other requests."""
    _, at = header(data, 0)
    size, begin = header(data, at)
    number, kind = data[at:begin + size], data[begin + size]
    done = {BIND: BIND_DONE, EXTENDED: EXTENDED_DONE}.get(kind)
    if done is None:
        return kind, b""
    body = number + bytes([done, 7]) + b"\x0a\x01\x00\x04\x00\x04\x00"
    return kind, b"\x30" + bytes([len(body)]) + body


def talk(stream, is_plain):
    with contextlib.suppress(OSError, IndexError):
        if not is_plain:
            stream = context.wrap_socket(stream, server_side=True)
            note(b"[a handshake was finished]\n")
        while data := stream.recv(65536):
            note(data)
            kind, answer = reply(data)
            stream.sendall(answer)
            if kind == EXTENDED and is_plain:
                talk(stream, False)
                return


listener = socket.create_server((address, int(port)))
print("ready", flush=True)
while True:
    connection, _ = listener.accept()
    threading.Thread(target=talk, args=(connection, starts), daemon=True).start()
