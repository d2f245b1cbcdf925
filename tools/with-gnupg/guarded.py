"""Which processes `passphrase` ends: its prompt's pinentry, and no other one that an agent names, for `tools/passphrase-cases`."""
import os
import pathlib
import re
import select
import signal
import socket
import subprocess
import threading
import time

from interrupted import GONE_WITHIN, GUARDED, NAME, below, processes, within
from scripted import LIMIT, PYTHON, as_bytes

NOBODY = 65534

# A process that has a name (prctl(2), PR_SET_NAME), and starts a thread for each line, whose number it tells.
NAMED = """import ctypes, sys, threading, time
ctypes.CDLL(None).prctl(15, sys.argv[1].encode())
print("named", flush=True)
for line in sys.stdin:
    thread = threading.Thread(target=time.sleep, args=(600,), daemon=True)
    thread.start()
    print(thread.native_id, flush=True)
"""

# libgpg-error: GPG_ERR_NO_DATA, of the agent.
NO_DATA = b"ERR 67108922 No data <GPG Agent>\n"


class FalseAgent:
    """An agent at a folder's socket. Where a request begins so it says that it launched a pinentry of a number, and once that is answered it waits for `over`,
    and ends the connection with the answer unread: a failed read there."""

    def __init__(self, home, request, number):
        self.request, self.number, self.told, self.over = request, number, threading.Event(), threading.Event()
        home.mkdir(mode=0o700)
        self.listener = socket.socket(socket.AF_UNIX)
        self.listener.bind(str(home / "S.gpg-agent"))
        self.listener.listen()
        threading.Thread(target=self.accept, daemon=True).start()

    def accept(self):
        while True:
            threading.Thread(target=self.serve, args=(self.listener.accept()[0],), daemon=True).start()

    def serve(self, client):
        client.sendall(b"OK\n")
        with client.makefile("rb") as lines:
            for line in lines:
                if re.match(self.request, line):
                    client.sendall(f"INQUIRE PINENTRY_LAUNCHED {self.number()} curses 1.2.1\n".encode())
                    select.select([client], [], [], LIMIT)
                    self.told.set()
                    self.over.wait(LIMIT)
                    break
                client.sendall(NO_DATA if line.startswith(b"GET_PASSPHRASE") else b"OK\n")
        client.close()


class Guarded:
    """The cases."""

    # A request for what is kept, and one for which the user is asked.
    LOOK, ASK = rb"GET_PASSPHRASE .*--no-ask", rb"GET_PASSPHRASE (?!.*--no-ask)"

    def __init__(self, cases):
        self.cases, self.count, self.started = cases, 0, []

    def groups(self):
        for name, holds in [
            ("a thread", self.thread), ("an older process", self.older), ("a younger one that is no pinentry", self.no_pinentry), ("one of another user", self.others),
            ("0", lambda: self.other_number(lambda number: 0)), ("1", lambda: self.stays([], self.ASK, lambda: 1, None)),
            ("2^32 and a pinentry's", lambda: self.other_number(lambda number: 2**32 + number)),
        ]:
            self.case(f"a number that an agent tells of its prompt: {name}", holds)
        for name, words, request in [
            ("--no-ask", ["--no-ask"], b"GET_PASSPHRASE"), ("--cached", ["--cached"], b"GET_PASSPHRASE"), ("--forget", ["--forget"], b"CLEAR_PASSPHRASE"),
            ("--store", ["--store"], b"PRESET_PASSPHRASE"), ("the first look", [], self.LOOK), ("--new forgets first", ["--new"], b"CLEAR_PASSPHRASE"),
            ("--ttl tries first", ["--ttl", "60"], b"PRESET_PASSPHRASE"),
        ]:
            self.case(f"a pinentry that an agent tells of where nobody is asked: {name}", lambda: self.unasked(words, request))
        for name, act in [("is killed", lambda all_of: self.signal(all_of[:1], signal.SIGKILL)), ("is interrupted", lambda all_of: self.signal(all_of[:1], signal.SIGINT)),
                          ("and its guard have SIGTERM", lambda all_of: self.signal(all_of, signal.SIGTERM)), ("and its guard have SIGHUP", lambda all_of: self.signal(all_of, signal.SIGHUP))]:
            self.case(f"a pinentry whose passphrase {name}", lambda: self.ended(act))

    def case(self, name, holds):
        self.cases.case(name, lambda: self.tried(holds))

    def tried(self, holds):
        self.count += 1
        self.started = []
        try:
            return holds()
        finally:
            for process in self.started:
                process.kill()
                process.communicate()

    def named(self, name="pinentry-x", **more):
        """A process of this name."""
        process = subprocess.Popen([PYTHON, "-c", NAMED, name], stdin=subprocess.PIPE, stdout=subprocess.PIPE, start_new_session=True, cwd="/", **more)
        self.started.append(process)
        process.stdout.readline()
        return process

    def younger(self, name="pinentry-x", **more):
        """One that is started where its number is wanted."""
        found = []

        def process():
            if not found:
                found.append(self.named(name, **more))
            return found[0]

        return process

    def thread(self):
        process = self.named()

        def number():
            process.stdin.write(b"one\n")
            process.stdin.flush()
            return int(process.stdout.readline())

        return self.stays([], self.ASK, number, lambda: process)

    def older(self):
        process = self.named()
        return self.stays([], self.ASK, lambda: process.pid, lambda: process)

    def no_pinentry(self):
        process = self.younger("sleep")
        return self.stays([], self.ASK, lambda: process().pid, process)

    def others(self):
        if os.geteuid() != 0:
            return ""
        process = self.younger(user=NOBODY, group=NOBODY, extra_groups=[])
        return self.stays([], self.ASK, lambda: process().pid, process)

    def other_number(self, of):
        process = self.younger()
        return self.stays([], self.ASK, lambda: of(process().pid), process)

    def unasked(self, words, request):
        process = self.younger()
        return self.stays(words, request, lambda: process().pid, process)

    def begun(self, words, request, number):
        """A `passphrase` whose agent has told this of the request, and that agent."""
        home = self.cases.place / f"guarded{self.count}"
        agent = FalseAgent(home, request, number)
        started = subprocess.Popen(["passphrase", *words, NAME], stdin=subprocess.PIPE, stdout=subprocess.PIPE, stderr=subprocess.PIPE, start_new_session=True,
                                   env=as_bytes({**self.cases.scripted.environment, "GNUPGHOME": str(home)}))
        self.started.append(started)
        started.stdin.write(b"a passphrase\n")
        started.stdin.close()
        started.stdin = None
        return (started, agent) if agent.told.wait(LIMIT) else (started, None)

    def guards(self, started):
        return [number for number, (parent, words) in processes().items() if parent == started.pid and "passphrase-guard" in words]

    def stays(self, words, request, number, process):
        """The process that is told so isn't touched where the agent is lost."""
        started, agent = self.begun(words, request, number)
        if agent is None:
            return "nothing was asked"
        guards = self.guards(started)
        agent.over.set()
        out, _ = started.communicate(timeout=LIMIT)
        time.sleep(GUARDED)
        pid = process().pid if process else 1
        state = pathlib.Path(f"/proc/{pid}/stat").read_text().rpartition(")")[2].split()[0]
        return "it was ended or stopped" if state in "TZX" else "it has a guard" if guards else f"it wrote {len(out)} bytes" if out else ""

    def ended(self, act):
        """The pinentry is gone soon."""
        process = self.younger()
        started, agent = self.begun([], self.ASK, lambda: process().pid)
        if agent is None or not within(LIMIT, lambda: self.guards(started)):
            return "there is no guard"
        if process().poll() is not None:
            return "the pinentry isn't there"
        act([started.pid, *below(started.pid, processes())])
        gone = within(GONE_WITHIN, lambda: process().poll() is not None)
        agent.over.set()
        return "" if gone else f"it stays for more than {GONE_WITHIN} s"

    def signal(self, numbers, which):
        for number in numbers:
            try:
                os.kill(number, which)
            except ProcessLookupError:
                pass
