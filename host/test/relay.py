"""What stands between a daemon and a server in the trials: a relay, and listeners that nobody should reach."""
import contextlib
import os
import socket
import threading
import time


def free_port(address="127.0.0.1"):
    with socket.socket() as probe:
        probe.bind((address, 0))
        return probe.getsockname()[1]


class Listener:
    """A socket that listens until it is ended, at a path or at an address with a port; each connection goes to `take`."""

    def __init__(self, place, take):
        self.place, self.take, self.seen = place, take, 0
        self.socket = socket.socket(socket.AF_UNIX if isinstance(place, str) else socket.AF_INET)
        if not isinstance(place, str):
            self.socket.setsockopt(socket.SOL_SOCKET, socket.SO_REUSEADDR, 1)
        self.socket.bind(place)
        self.socket.listen(64)
        threading.Thread(target=self.accept_all, daemon=True).start()

    def __enter__(self):
        return self

    def __exit__(self, *_):
        self.end()

    def accept_all(self):
        while True:
            try:
                stream, _ = self.socket.accept()
            except OSError:
                return
            self.seen += 1
            threading.Thread(target=self.take, args=(stream,), daemon=True).start()

    def end(self):
        # A thread that waits in accept holds the socket: this wakes it.
        with contextlib.suppress(OSError):
            self.socket.shutdown(socket.SHUT_RDWR)
        self.socket.close()
        if isinstance(self.place, str):
            with contextlib.suppress(OSError):
                os.unlink(self.place)


class Trap(Listener):
    """A listener that counts who connects, and answers nobody."""

    def __init__(self, port=0):
        super().__init__(("127.0.0.1", port or free_port()), lambda stream: stream.close())
        self.port = self.place[1]


class Relay(Listener):
    """Hands what comes on to a port of the loopback device, each piece `delay` seconds late, and the answers back."""

    def __init__(self, place, port, delay=0.0):
        self.port, self.delay = port, delay
        super().__init__(place, self.relay)

    def relay(self, client):
        try:
            server = socket.create_connection(("127.0.0.1", self.port))
        except OSError:
            client.close()
            return
        back = threading.Thread(target=pump, args=(server, client, 0.0), daemon=True)
        back.start()
        pump(client, server, self.delay)
        back.join()
        client.close()
        server.close()


def pump(source, sink, delay):
    with contextlib.suppress(OSError):
        while piece := source.recv(65536):
            time.sleep(delay)
            sink.sendall(piece)
    with contextlib.suppress(OSError):
        sink.shutdown(socket.SHUT_WR)


class Deaf:
    """A listener whose queue is full: who connects waits, and is never answered. At a path or at an address with a port."""

    def __init__(self, place):
        kind = socket.AF_UNIX if isinstance(place, str) else socket.AF_INET
        self.socket = socket.socket(kind)
        self.socket.bind(place)
        self.socket.listen(0)
        self.waiting = [socket.socket(kind) for _ in range(4)]
        for one in self.waiting:
            one.setblocking(False)
            with contextlib.suppress(BlockingIOError):
                one.connect(self.socket.getsockname())

    def __enter__(self):
        return self

    def __exit__(self, *_):
        for one in (*self.waiting, self.socket):
            one.close()
