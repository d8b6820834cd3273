"""Stores that are full, read-only or cut."""
import contextlib
import hashlib
import os
import random
import shutil
import subprocess
import time

from daemon_here import Client, Daemon, Directory, users_known
from trial import check, tell

STORE_FAULT, BAD_STORE = 11, 12
CUTS = 20


def sum_of(path):
    with open(path, "rb") as file:
        return hashlib.sha256(file.read()).hexdigest()


def spoilt_stores(program, folder, seed):
    """A store on a small file system, in a mount namespace that a sleeper holds: it is full, then read-only; and stores that
    were cut."""
    place = os.path.join(folder, "small")
    os.makedirs(place)
    if subprocess.run(["unshare", "-m", "true"], stderr=subprocess.DEVNULL, check=False).returncode != 0:
        tell("skipped", "stores that are full, read-only or cut", "no mount namespace can be made here")
        return
    mounted = 'mount -t tmpfs -o mode=0700,size=512k tmpfs "$1"; touch "$1/there"; exec sleep 600'
    holder = subprocess.Popen(["unshare", "-m", "sh", "-ec", mounted, "sh", place])
    inside = ("nsenter", "-m", "-t", str(holder.pid))
    kept = os.path.join(folder, "kept")
    try:
        with Directory(seed) as directory:
            for _ in range(100):
                if subprocess.run([*inside, "test", "-e", place + "/there"], stderr=subprocess.DEVNULL, check=False).returncode == 0:
                    break
                time.sleep(0.05)
            full_store(program, os.path.join(folder, "full"), directory, place, inside)
            with open(kept, "wb") as out:
                subprocess.run([*inside, "cat", place + "/store"], stdout=out, check=True)
            read_only_store(program, os.path.join(folder, "read-only"), directory, place, inside, kept)
            cut_stores(program, folder, directory, kept, seed)
    finally:
        holder.kill()
        holder.wait()


def full_store(program, folder, directory, place, inside):
    with Daemon(program, folder, directory.port, place + "/store", inside) as daemon:
        is_up = daemon.comes_up() and not users_known(daemon, 50) and daemon.stops() == 0
        if not check("a store on a small file system", is_up, daemon.last_line()):
            return
        daemon.start()
        check("it is read again", daemon.comes_up())
        fault = users_known(daemon, 2000)
        check("2,000 users, whose rows have no room there, are answered", not fault, fault)
        status = daemon.stops()
        check("at its end that is a store fault", status == STORE_FAULT, "status %s" % status)
        daemon.start()
        if check("while there is no room it starts all the same", daemon.comes_up(), daemon.last_line()):
            check("from the rows that it kept", knows_of_before(daemon))
            told = daemon.told().count("the store cannot be written")
            check("answers, and tells in its log that it cannot write",
                  not users_known(daemon, 2000) and daemon.stops() == STORE_FAULT and told < daemon.told().count("the store cannot be written"))
        subprocess.run([*inside, "mount", "-o", "remount,size=8m", place], check=True)
        daemon.start()
        if check("once there is room it starts from the rows that it kept before", daemon.comes_up(), daemon.last_line()):
            with Client(daemon.public) as client:
                reply = client.ask("user", "m7")
            check("which are whole", ":/home/m7:" in reply, reply)
            check("and ends in order", daemon.stops() == 0)


def knows_of_before(daemon):
    """Whether it answers from what the daemon before it stored, also while no server is to be asked."""
    with Client(daemon.socket) as client:
        client.ask("offline")
        reply = client.ask("user", "m7")
        client.ask("online")
    return reply.startswith(("found ", "old ")) and ":/home/m7:" in reply


def read_only_store(program, folder, directory, place, inside, kept):
    subprocess.run([*inside, "mount", "-o", "remount,ro", place], check=True)
    with Daemon(program, folder, directory.port, place + "/store", inside) as daemon:
        if check("with a store that is read-only it starts", daemon.comes_up(), daemon.last_line()):
            check("from its rows", knows_of_before(daemon))
            status = daemon.stops()
            check("and its end is a store fault", status == STORE_FAULT, "status %s" % status)
    after = subprocess.run([*inside, "sha256sum", place + "/store"], stdout=subprocess.PIPE, text=True, check=True).stdout
    check("and is left as it is", after.split()[0] == sum_of(kept))


def cut_stores(program, folder, directory, kept, seed):
    """A store that was cut is refused and left as it is, or read as far as rows were whole; then its answers are right."""
    dice, size, refused, served, faults = random.Random("cuts %s" % seed), os.path.getsize(kept), 0, 0, []
    for number in range(CUTS):
        store, length = os.path.join(folder, "cut"), dice.randrange(1, size)
        for left in (store, store + "-wal"):
            with contextlib.suppress(FileNotFoundError):
                os.remove(left)
        shutil.copy(kept, store)
        os.truncate(store, length)
        before = sum_of(store)
        with Daemon(program, os.path.join(folder, "cut-%d" % number), directory.port, store) as daemon:
            if daemon.comes_up():
                served += 1
                with Client(daemon.public) as client:
                    reply = client.ask("user", "m7")
                if not reply.startswith(("found ", "old ", "dark ")):
                    faults.append("%d bytes: %s" % (length, reply))
                continue
            status = daemon.ends()
            refused += 1
            if status not in (STORE_FAULT, BAD_STORE) or sum_of(store) != before:
                faults.append("%d bytes: status %s%s" % (length, status, "" if sum_of(store) == before else ", and it was changed"))
    check("%d stores that were cut are refused and left alone, or serve" % CUTS, not faults,
          "; ".join(faults) or "%d refused, %d served" % (refused, served))
