"""What host/bench/measure and host/bench/users measure: the daemon, the floor, and Debian's sssd, nslcd and unscd, each of them
in a mount namespace of its own, over a slapd of the measurement. `measure` says what is started and where."""
import contextlib
import os
import shutil
import signal
import subprocess
import sys
import tempfile
import time

HERE = os.path.dirname(os.path.abspath(__file__))
HOST = os.path.dirname(HERE)
os.environ["PATH"] = "/usr/bin:/bin:/usr/sbin:/sbin:" + os.environ["PATH"]

RULES = 100
TICK = os.sysconf("SC_CLK_TCK")
CONFIGURATION = """\
[sssd]
domains = test
[domain/test]
id_provider = ldap
auth_provider = ldap
ldap_uri = {uri}
ldap_search_base = dc=test
cache_credentials = TRUE
entry_cache_timeout = {lasts}
"""


def unit_environment():
    """What its unit gives the daemon."""
    with open(os.path.join(HOST, "systemd", "bixethomi.service"), encoding="ascii") as unit:
        lines = [line.split("=", 1)[1].split() for line in unit if line.startswith("Environment=")]
    return dict(word.split("=", 1) for words in lines for word in words)


def say(text):
    print(text, file=sys.stderr, flush=True)


def write(path, text, mode=0o644):
    with open(path, "w", encoding="utf-8") as out:
        out.write(text)
    os.chmod(path, mode)


def children(pid):
    found = [pid]
    for one in found:
        try:
            for task in os.listdir("/proc/%d/task" % one):
                with open("/proc/%d/task/%s/children" % (one, task), encoding="ascii") as listed:
                    found += [int(word) for word in listed.read().split()]
        except OSError:
            pass
    return found


def processor_seconds(pids):
    used = 0
    for pid in pids:
        try:
            with open("/proc/%d/stat" % pid, encoding="utf-8") as stat:
                fields = stat.read().rsplit(")", 1)[1].split()
            used += int(fields[11]) + int(fields[12])
        except OSError:
            pass
    return used / TICK


class System:
    """One that answers: how it is started, and how it is asked."""

    name = ""
    is_real = True
    keeps = False
    # How long answers last, in seconds.
    lasts = 5400

    def __init__(self, bench):
        self.bench, self.processes = bench, []

    def place(self, name):
        return os.path.join(self.bench.folder, name)

    def launch(self, words, **more):
        with open(self.place(self.name.split()[0] + ".log"), "ab") as log:
            self.processes.append(subprocess.Popen(words, stdin=subprocess.DEVNULL, stdout=log, stderr=log, **more))

    def prepare(self, fresh=True):
        """What is done before its start, with no time counted; what it kept earlier goes where it is to be fresh."""

    def start(self):
        raise NotImplementedError

    def asker(self):
        """The words in front of a client's command."""
        raise NotImplementedError

    def client(self, *words, asker=None):
        return subprocess.Popen([*(asker or self.asker()), *words], stdout=subprocess.PIPE, text=True)

    def told(self, client):
        told = client.communicate()[0].split()
        if not told:
            raise RuntimeError("%s: a client told nothing" % self.name)
        return dict(zip(told[::2], (float(word) for word in told[1::2])))

    def ask(self, *words, asker=None):
        return self.told(self.client(*words, asker=asker))

    def asker_anew(self):
        """The same, where each question has a connection of its own; none where its clients choose that."""
        return None

    def asker_of_logins(self):
        """The same for logins; none where it has none."""
        return None

    def start_timed(self, name, fresh=True):
        """Milliseconds from its start to its first answer, for which a client asks already before."""
        self.prepare(fresh)
        client = self.client("first", name)
        client.stdout.readline()
        began = time.monotonic_ns()
        self.start()
        told = client.communicate()[0].strip()
        if not told:
            self.stop()
            raise RuntimeError("%s gave no answer" % self.name)
        return (int(told) - began) / 1e6

    def pids(self):
        return [pid for process in self.processes for pid in children(process.pid)]

    def processor_seconds(self):
        return processor_seconds(self.pids())

    def memory(self):
        """MiB of its own pages."""
        total = 0
        for pid in self.pids():
            try:
                with open("/proc/%d/smaps_rollup" % pid, encoding="ascii") as rollup:
                    total += next(int(line.split()[1]) for line in rollup if line.startswith("Pss:"))
            except OSError:
                pass
        return total / 1024

    def close(self):
        """Lets go what it kept beside the folder of the measurement."""

    def stop(self):
        for process in reversed(self.processes):
            pids = children(process.pid)
            process.terminate()
            try:
                process.wait(10)
            except subprocess.TimeoutExpired:
                for pid in pids:
                    with contextlib.suppress(ProcessLookupError):
                        os.kill(pid, signal.SIGKILL)
                process.wait()
        self.processes = []


class Floor(System):
    name, is_real = "floor", False

    def start(self):
        self.launch([self.bench.built("floor"), self.place("floor.socket")])

    def asker(self):
        return [self.bench.built("client"), "frames", self.place("floor.socket")]

    def asker_anew(self):
        return [self.bench.built("client"), "anew", self.place("floor.socket")]


class Ours(System):
    """The daemon that is measured; with a mark, one of several at a time, each with files of its own."""

    name = "bixethomi"

    def __init__(self, bench, mark="ours", uri=None):
        super().__init__(bench)
        self.mark, self.uri = mark, uri
        tried = subprocess.run([bench.program, "serve", *[self.place("none")] * 3],
                               stdin=subprocess.DEVNULL, stdout=subprocess.DEVNULL, stderr=subprocess.DEVNULL, check=False, timeout=20)
        self.keeps = tried.returncode == 3

    def own(self, name):
        return self.place("%s.%s" % (self.mark, name))

    def prepare(self, fresh=True):
        if fresh and os.path.exists(self.own("store")):
            os.remove(self.own("store"))
        write(self.own("conf"), CONFIGURATION.format(uri=self.uri or self.bench.uri, lasts=self.lasts) +
              "access_provider = ipa\nipa_hostname = client.test\nipa_hbac_refresh = 3600\n")

    def start(self):
        words = [self.bench.program, "serve", self.own("conf"), self.own("socket"), *([self.own("store")] if self.keeps else [])]
        self.launch(words, env={**os.environ, **unit_environment()})

    def stop(self):
        if self.processes and self.processes[0].poll() is None:
            with contextlib.suppress(subprocess.TimeoutExpired):
                subprocess.run([sys.executable, os.path.join(HOST, "test", "frame.py"), self.own("socket"), "stop"],
                               stdout=subprocess.DEVNULL, stderr=subprocess.DEVNULL, check=False, timeout=20)
                self.processes[0].wait(40)
        super().stop()

    def asker_by(self, kind):
        return [self.bench.built("client"), kind, self.own("socket.public")]

    def asker(self):
        return self.asker_by("frames")

    def asker_anew(self):
        return self.asker_by("anew")

    def asker_of_logins(self):
        return self.asker_by("logins")

    def asker_of_checks(self):
        return self.asker_by("checks")


class Peer(System):
    """One of Debian's, in a mount namespace of its own, in which the files of the measurement stand in the places
    where it looks for them. Its clients ask in there."""

    packages = ()

    def hold(self, preparation, words, beside=""):
        """Makes the namespace and all in it, and then the process that waits there until it becomes the daemon."""
        log = self.place(self.name.split()[0] + ".log")
        beside = "{ %s\n} </dev/null >>\"$0\" 2>&1" % (beside or ":")
        script = "\n".join([preparation, "echo ready", "read -r start", beside, 'exec "$@" </dev/null >>"$0" 2>&1'])
        with open(log, "ab") as said:
            holder = subprocess.Popen(["unshare", "-m", "sh", "-ec", script, log, *words],
                                      stdin=subprocess.PIPE, stdout=subprocess.PIPE, stderr=said)
        self.processes.append(holder)
        # A client that went there earlier would ask in the namespace of the host.
        if holder.stdout.readline() != b"ready\n":
            raise RuntimeError("%s: its namespace cannot be made" % self.name)

    def start(self):
        holder = self.processes[-1]
        with contextlib.suppress(BrokenPipeError):
            holder.stdin.write(b"start\n")
            holder.stdin.close()
        holder.stdout.close()

    def launch_in_namespace(self, preparation, words, beside=""):
        self.hold(preparation, words, beside)
        Peer.start(self)

    def inside(self, words):
        return ["nsenter", "-m", "-t", str(self.processes[-1].pid), *words]

    def logins_through(self, module):
        """Logins by PAM, through this module alone."""
        folder = self.place(self.name + ".pam")
        os.makedirs(folder, exist_ok=True)
        write(os.path.join(folder, "login"), "auth required %s\naccount required %s\n" % (module, module))
        return self.inside([self.bench.built("client"), "pam", folder])


class Sssd(Peer):
    name, packages, keeps = "sssd", ("sssd-common", "sssd-ldap", "libnss-sss", "libpam-sss"), True

    def __init__(self, bench):
        super().__init__(bench)
        # In memory, so that it waits for no disk.
        self.state = tempfile.mkdtemp(prefix="host-bench-sssd.", dir="/dev/shm" if os.path.isdir("/dev/shm") else bench.folder)
        os.chmod(self.state, 0o755)

    def prepare(self, fresh=True):
        write(self.place("sssd.conf"), CONFIGURATION.format(uri=self.bench.uri, lasts=self.lasts).replace(
            "domains = test", "domains = test\nservices = nss, pam") + "ldap_schema = rfc2307bis\nldap_id_use_start_tls = false\n"
            "ldap_auth_disable_tls_never_use_in_production = true\n", 0o600)
        if fresh:
            shutil.rmtree(self.state)
            os.mkdir(self.state, 0o755)
        self.hold("""
            mount -t tmpfs -o mode=0755 tmpfs /run
            mount --bind '%s' /var/lib/sss
            for part in db mc pipes/private pubconf gpo_cache secrets deskprofile keytabs; do mkdir -p /var/lib/sss/$part; done""" % self.state,
                  ["sssd", "-i", "-c", self.place("sssd.conf")])

    def close(self):
        shutil.rmtree(self.state, ignore_errors=True)

    def asker(self):
        # Its responder, not the files of answers that a client reads by itself.
        return self.inside(["env", "SSS_NSS_USE_MEMCACHE=NO", self.bench.built("client"), "module", "libnss_sss.so.2"])

    def asker_of_logins(self):
        return self.logins_through("pam_sss.so")


class Nslcd(Peer):
    name, packages = "nslcd", ("nslcd", "libnss-ldapd", "libpam-ldapd")

    def preparation(self):
        write(self.place("nslcd.conf"), "uid nslcd\ngid nslcd\nuri %s\nbase dc=test\nnss_nested_groups yes\n" % self.bench.uri, 0o644)
        return """
            mount -t tmpfs -o mode=0755 tmpfs /run
            mkdir /run/nslcd /run/nscd
            chown nslcd:nslcd /run/nslcd
            mount --bind '%s' /etc/nslcd.conf""" % self.place("nslcd.conf")

    def prepare(self, fresh=True):
        self.hold(self.preparation(), ["nslcd", "-n"])

    def asker(self):
        return self.inside([self.bench.built("client"), "module", "libnss_ldap.so.2"])

    def asker_of_logins(self):
        return self.logins_through("pam_ldap.so minimum_uid=1000")


class Unscd(Nslcd):
    name, packages = "unscd", ("nslcd", "libnss-ldapd", "unscd")

    def prepare(self, fresh=True):
        write(self.place("nscd.conf"), "".join(
            "enable-cache {0} {1}\npositive-time-to-live {0} {2}\nsuggested-size {0} 20011\ncheck-files {0} no\n".format(
                part, on, self.lasts)
            for part, on in (("passwd", "yes"), ("group", "no"), ("hosts", "no"))))
        write(self.place("nsswitch.conf"), "passwd: files ldap\ngroup: files ldap\nhosts: files\n")
        self.hold(self.preparation() + "\nmount --bind '%s' /etc/nsswitch.conf" % self.place("nsswitch.conf"),
                  ["nscd", "-d", "-f", self.place("nscd.conf")], "nslcd -n & until [ -S /run/nslcd/socket ]; do sleep 0.001; done")

    def asker(self):
        return self.inside([self.bench.built("client"), "libc", "-"])

    def asker_of_logins(self):
        return None

    def stop(self):
        # nslcd is a child of nscd's process here.
        for pid in [pid for process in self.processes for pid in children(process.pid)][1:]:
            with contextlib.suppress(ProcessLookupError):
                os.kill(pid, signal.SIGTERM)
        super().stop()


class Bench:
    def __init__(self, folder, program, users):
        self.folder, self.program, self.users, self.uri = folder, program, users, ""
        self.directory, self.large = os.path.join(folder, "directory"), os.path.join(folder, "large")
        subprocess.run(["make", "-s", "-C", HOST, "OUT=" + os.path.join(folder, "built"), "bench"], check=True)

    def built(self, name):
        return os.path.join(self.folder, "built", "bench", name)

    def slapd(self, *words, at=None):
        return subprocess.run([os.path.join(HOST, "slapd"), words[0], at or self.directory, *words[1:]],
                              stdout=subprocess.PIPE, text=True, check=True).stdout.strip()

    def directory_of(self, at, *words):
        """Starts one of so many users; gives where it is asked."""
        ldif = at + ".ldif"
        with open(ldif, "w", encoding="utf-8") as out:
            subprocess.run([sys.executable, os.path.join(HOST, "test", "directory.py"), *words], stdout=out, check=True)
        return self.slapd("start", ldif, at=at)

    def start_directory(self):
        self.uri = self.directory_of(self.directory, "--members", str(self.users), "--rules", str(RULES))

    def start_large(self, users):
        """A directory beside it, in which hardly anybody is in a group."""
        return self.directory_of(self.large, "--members", str(users), "--crowd", "1")

    def stop_directories(self):
        for at in (self.directory, self.large):
            if os.path.exists(at):
                self.slapd("stop", at=at)

    def processor_seconds(self):
        """Of the directories."""
        pids = []
        for at in (self.directory, self.large):
            with contextlib.suppress(OSError), open(os.path.join(at, "pid"), encoding="ascii") as told:
                pids.append(int(told.read().split()[0]))
        return processor_seconds(pids)

    def searches(self, name):
        with open(os.path.join(self.directory, "log"), encoding="utf-8", errors="replace") as log:
            return sum(1 for line in log if " SRCH base=" in line and "(uid=%s)" % name in line)
