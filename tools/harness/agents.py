"""Built agents that run in home folders of their own, and all that they start."""
import contextlib
import os
import pathlib
import re
import resource
import signal
import socket
import subprocess

from harness.clients import SECONDS, Session, Wrong, expect, linked, wait_for

# How many seconds an agent has until it serves, on a busy machine.
START_SECONDS = 60

CLOSING = b"OK closing connection\n"
SUMMARY = re.compile(r"marks (\d+) given (\d+) empty (\d+) opened (\d+) stored (\d+) cleared (\d+) flushed (\d+)\n")


def processes():
    """The number, the parent and the session of each process."""
    for number in filter(str.isdigit, os.listdir("/proc")):
        with contextlib.suppress(OSError):
            fields = pathlib.Path("/proc", number, "stat").read_text(errors="replace").rpartition(")")[2].split()
            yield int(number), int(fields[1]), int(fields[3])


def words_of(number):
    """The words of a process, and none of one that has ended, whoever is to wait for it."""
    try:
        return pathlib.Path("/proc", str(number), "cmdline").read_bytes().split(b"\0")
    except OSError:
        return []


def is_running(number):
    return any(words_of(number))


def write_script(path, text):
    """A program of this text."""
    path.write_text(text)
    path.chmod(0o755)
    return path


class Agent:
    """An agent in a home folder, in a session of its own, which is ended with all that it started. Before its words may stand what a shell does."""

    def __init__(self, program, home, *words, shell="", stdin=subprocess.DEVNULL, stdout=subprocess.PIPE, user=None, **more):
        command = [str(word) for word in (program, *words, "--homedir", home)]
        if shell:
            command = ["/bin/sh", "-c", f'{shell}; exec "$0" "$@"', *command]
        if user:
            more |= {"user": user, "group": user, "extra_groups": []}
        self.process = subprocess.Popen(command, stdin=stdin, stdout=stdout, start_new_session=True, **more)
        self.pid = self.process.pid

    def __enter__(self):
        try:
            self.begin()
        except BaseException:
            self.__exit__()
            raise
        return self

    def begin(self):
        """Waits until it serves."""

    def __exit__(self, *_):
        self.kill_session()
        self.process.wait()
        if self.process.stdout:
            self.process.stdout.close()

    def kill_session(self, is_spared=lambda number: False):
        for number, _, session in list(processes()):
            if session == self.pid and not is_spared(number):
                with contextlib.suppress(ProcessLookupError):
                    os.kill(number, signal.SIGKILL)

    def kill_what_it_started(self):
        self.kill_session(lambda number: number == self.pid)

    def children(self):
        return [number for number, parent, _ in processes() if parent == self.pid]

    def expect_no_child(self):
        expect("children", self.children(), [])

    def descriptors(self):
        return len(os.listdir(f"/proc/{self.pid}/fd"))

    def limit(self, kind, number):
        resource.prlimit(self.pid, kind, (number, resource.prlimit(self.pid, kind)[1]))

    def serves(self):
        return self.process.poll() is None

    def status(self, seconds=SECONDS):
        try:
            return self.process.wait(seconds)
        except subprocess.TimeoutExpired:
            raise Wrong("it doesn't end") from None

    def expect_status(self, wanted):
        expect("status", self.status(), wanted)


class Server(Agent):
    """An agent that serves one session, over a socket in place of its standard input and output."""

    def __init__(self, program, home, *words, **more):
        ours, theirs = socket.socketpair()
        super().__init__(program, home, "--server", *words, stdin=theirs, stdout=theirs, **more)
        theirs.close()
        self.session = Session(ours)

    def begin(self):
        self.session.greeted()

    def expect_end(self):
        self.session.expect("BYE", CLOSING)
        self.expect_status(0)


class Daemon(Agent):
    """An agent that serves a socket of its home folder, and with --extra-socket a second one."""

    def __init__(self, program, home, *words, **more):
        super().__init__(program, home, "--daemon", *words, **more)
        home = pathlib.Path(home)
        self.socket, self.second = home / "S.gpg-agent", home / "S.gpg-agent.extra"
        self.sockets = [self.socket, self.second] if "--extra-socket" in words else [self.socket]

    def begin(self):
        wait_for("a socket", lambda: all(path.exists() for path in self.sockets) or not self.serves(), START_SECONDS)
        if not self.serves():
            raise Wrong(f"it ended with status {self.process.returncode}")

    def connect(self, path=None):
        return Session(linked(path or self.socket))

    def client(self):
        return self.connect().greeted()

    def summary(self):
        """Its last line, once it has ended with status 0, or what it wrote in its place."""
        self.expect_status(0)
        written = self.process.stdout.read()
        return written if isinstance(written, str) else written.decode(errors="replace")

    def expect_end(self):
        with (client := self.client()).link:
            client.expect("KILLAGENT", CLOSING)
        self.expect_stopped()

    def expect_stopped(self):
        summary = self.summary()
        if not SUMMARY.fullmatch(summary):
            raise Wrong(f"another summary: {summary!r}")
        expect("sockets that are there", [path for path in self.sockets if path.exists()], [])
