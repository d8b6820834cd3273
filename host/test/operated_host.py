"""A host as the trial of the administrator's tools has it: a directory that fails in chosen ways, and a daemon beside it."""
import contextlib
import io
import os
import re
import socket
import sqlite3
import subprocess
import sys
import threading
import time

import directory as directory_of_tests
import ldap_messages as ldap
from daemon_here import Client, unit_environment
from trial import HOST

TOOLS = os.path.join(HOST, "tools")
# Seconds within which the daemon has written its log and its status: many times of what it needs.
DEADLINE = 300


def holds_within(condition, seconds=DEADLINE):
    """Waits until a condition holds."""
    end = time.monotonic() + seconds
    while not condition():
        if time.monotonic() > end:
            return False
        time.sleep(0.05)
    return True


class Directory:
    """An LDAP server. `mode` says how it answers: well, silent, garbage, or with the number of a result code."""

    def __init__(self, members=3, rules=1):
        ldif = io.StringIO()
        directory_of_tests.print_ldif(directory_of_tests.Directory(members, rules), directory_of_tests.BASE, ldif)
        self.entries, self.mode, self.asked = ldap.entries_of(ldif.getvalue()), "well", 0
        self.listener, self.links = socket.create_server(("127.0.0.1", 0)), []
        self.port = self.listener.getsockname()[1]
        threading.Thread(target=self.accept, args=(self.listener,), daemon=True).start()

    def accept(self, listener):
        with contextlib.suppress(OSError):
            while True:
                link = listener.accept()[0]
                self.links.append(link)
                threading.Thread(target=self.serve, args=(link,), daemon=True).start()

    def serve(self, link):
        held = b""
        with contextlib.suppress(OSError, ValueError, IndexError):
            while True:
                more = link.recv(65536)
                if not more:
                    return
                held += more
                while (found := ldap.split(held)) is not None:
                    held = held[found[2]:]
                    self.answer(link, *ldap.read_request(found[1]))

    def answer(self, link, number, tag, parts):
        self.asked += 1
        if self.mode == "garbage":
            link.sendall(b"HTTP/1.1 400 Bad Request\r\n\r\n")
        elif self.mode == "silent" or tag == ldap.UNBIND:
            return
        elif self.mode == "well":
            link.sendall(b"".join(ldap.answers(self.entries, number, tag, parts)))
        else:
            done = ldap.BOUND if tag == ldap.BIND else ldap.DONE
            link.sendall(ldap.message(number, ldap.result(done, int(self.mode))))

    def goes_down(self):
        """Nobody listens any more, and all links end."""
        with contextlib.suppress(OSError):
            self.listener.shutdown(socket.SHUT_RDWR)
        self.listener.close()
        for link in self.links:
            with contextlib.suppress(OSError):
                link.shutdown(socket.SHUT_RDWR)

    def comes_back(self):
        self.listener = socket.create_server(("127.0.0.1", self.port))
        self.mode = "well"
        threading.Thread(target=self.accept, args=(self.listener,), daemon=True).start()


class Host:
    """A daemon that is started as the unit starts it, in a folder of its own. `sections` are further lines by section."""

    def __init__(self, program, folder, port, sections=None, front=(), store="store"):
        os.makedirs(folder, exist_ok=True)
        self.program, self.front, self.process = program, list(front), None
        self.conf, self.socket = os.path.join(folder, "bixethomi.conf"), os.path.join(folder, "socket")
        self.store, self.log = os.path.join(folder, store), os.path.join(folder, "log")
        self.environment = {**os.environ, **unit_environment(), "BIXETHOMI_PROGRAM": program}
        sections = sections or {}
        lines = ["[sssd]", "domains = test", *sections.get("sssd", ()), "[nss]", *sections.get("nss", ()), "[pam]",
                 *sections.get("pam", ()), "[domain/test]", "id_provider = ldap", "cache_credentials = TRUE",
                 "ldap_uri = ldap://127.0.0.1:%d" % port, "ldap_search_base = dc=test", "access_provider = ipa",
                 "ipa_hostname = client.test", *sections.get("domain", ()), ""]
        with open(self.conf, "w", encoding="ascii") as out:
            out.write("\n".join(lines))

    def __enter__(self):
        try:
            self.starts()
        except BaseException:
            self.killed()
            raise
        return self

    def __exit__(self, *_):
        self.killed()

    def starts(self):
        """Starts it, and waits as the unit does until it answers."""
        with open(self.log, "ab") as log:
            self.process = subprocess.Popen([*self.front, os.path.join(TOOLS, "serve"), self.conf, self.socket, self.store],
                                            stdin=subprocess.DEVNULL, stdout=log, stderr=log, env=self.environment)
        return self.is_alive(DEADLINE)

    def is_alive(self, seconds):
        words = [os.path.join(TOOLS, "alive"), self.socket, str(seconds), str(self.process.pid)]
        return subprocess.run(words, env=self.environment, stderr=subprocess.DEVNULL, check=False).returncode == 0

    def killed(self):
        """The daemon ends with the script that runs it."""
        if self.process is not None and self.process.poll() is None:
            daemons = self.daemons()
            self.process.kill()
            self.process.wait()
            holds_within(lambda: not any(os.path.exists("/proc/%d" % daemon) for daemon in daemons))

    def daemons(self):
        """The processes below the script."""
        with open("/proc/%d/task/%d/children" % (self.process.pid, self.process.pid), encoding="ascii") as children:
            return [int(child) for child in children.read().split()]

    def stop(self):
        """The word `stop`, by the program: it makes the connection that the daemon may wait for."""
        return self.tool(self.program, "query", self.socket, "stop")

    def ends(self):
        """Its status; None where it does not end."""
        try:
            return self.process.wait(DEADLINE)
        except subprocess.TimeoutExpired:
            return None

    def ask(self, *words, administrator=True):
        """The reply; a text without one where the connection ends."""
        try:
            with Client(self.socket if administrator else self.socket + ".public") as client:
                return client.ask(*words)
        except OSError as fault:
            return "no reply: %s" % fault

    def logged(self):
        with open(self.log, encoding="utf-8", errors="replace") as log:
            return log.read()

    def logs(self, pattern):
        """Waits for a line of the log."""
        return holds_within(lambda: re.search(pattern, self.logged(), re.MULTILINE))

    def tool(self, name, *words):
        """The status and the output of a tool."""
        done = subprocess.run([name, *words], env=self.environment, stdout=subprocess.PIPE, stderr=subprocess.STDOUT, text=True,
                              errors="replace", check=False)
        return done.returncode, done.stdout

    def status(self, *words):
        return self.tool(os.path.join(TOOLS, "bixethomi-status"), "--socket", self.socket, "--log", self.log, *words)

    def status_shows(self, pattern, code=None):
        """Waits until bixethomi-status has a line."""
        def shows():
            got, shown = self.status()
            return re.search(pattern, shown, re.MULTILINE) and code in (None, got)
        return holds_within(shows)


def bodies_of(store):
    """The blobs of a store that nobody writes."""
    with contextlib.closing(sqlite3.connect(store)) as base:
        return [bytes(body) for (body,) in base.execute("SELECT body FROM kept ORDER BY place")]


def write_bodies(store, bodies):
    with contextlib.closing(sqlite3.connect(store)) as base, base:
        base.execute("DELETE FROM kept")
        base.executemany("INSERT INTO kept(place, body) VALUES (?, ?)", enumerate(bodies))


def shifted(body, seconds):
    """A row whose moment is so many seconds earlier. A head has its version in front of the number of the next entry."""
    at = 13 if body[0] == 0 else 9
    moment = int.from_bytes(body[at:at + 8], "big") - seconds
    return body[:at] + moment.to_bytes(8, "big") + body[at + 8:]


if __name__ == "__main__":
    sys.exit("a module of host/operating")
