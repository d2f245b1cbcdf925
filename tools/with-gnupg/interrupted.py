"""What is left of a prompt whose `passphrase` was interrupted: in a real terminal by pinentry-curses, and without one, for `tools/passphrase-cases`."""
import ctypes
import os
import pathlib
import re
import shutil
import signal
import subprocess
import termios
import time

from scripted import LIMIT, as_bytes

# Within how many seconds the prompt is gone: one, and another for a busy machine.
GONE_WITHIN = 2

# How many seconds a terminal has to show something.
SHOWN_WITHIN = 30

# Within how many seconds the guard of a prompt that is gone has ended, whatever it has to do.
GUARDED = 1.5

# prctl(2): a process that lost its parent becomes a child of this one.
PR_SET_CHILD_SUBREAPER = 36

NAME, OTHER, SECRET = "restic:home", "borg:home", "Tr0ub4dor secret"


class Terminal:
    """A shell in a terminal of tmux's."""

    def __init__(self, place, environment):
        self.tmux, self.environment = ["tmux", "-S", str(place / "terminal"), "-f", "/dev/null"], environment
        self.files, self.count = place, 0
        self.call("new-session", "-d", "-x", "100", "-y", "30", "-c", str(place), "bash", "--norc", "--noprofile", "-i")

    def call(self, *words):
        return subprocess.run([*self.tmux, *words], check=True, capture_output=True, text=True, env=self.environment, timeout=LIMIT).stdout

    def type(self, text):
        self.call("send-keys", "-l", text)
        self.call("send-keys", "Enter")

    def key(self, name):
        self.call("send-keys", name)

    def screen(self):
        return self.call("capture-pane", "-p")

    def shows(self, pattern, seconds=SHOWN_WITHIN):
        return within(seconds, lambda: re.search(pattern, self.screen(), re.M))

    def prompts(self):
        """Whether pinentry-curses has drawn an empty prompt."""
        return self.shows("<OK>") and self.shows("____")

    def obeys(self):
        """Whether a line that is typed now is read by the shell, and by it alone."""
        self.count += 1
        self.type(f"echo typed-{self.count}-$((40 + 2))")
        return self.shows(f"^typed-{self.count}-42$", GONE_WITHIN)

    def modes(self):
        """The terminal's modes, as a program has them that the shell starts."""
        path = self.files / "modes"
        path.unlink(missing_ok=True)
        self.type("stty -a >modes.new; mv modes.new modes")
        return path.read_text() if within(SHOWN_WITHIN, path.exists) else ""

    def echoes(self):
        """Whether the terminal itself shows what is typed now."""
        opened = os.open(self.call("display-message", "-p", "#{pane_tty}").strip(), os.O_RDONLY | os.O_NOCTTY)
        try:
            return bool(termios.tcgetattr(opened)[3] & termios.ECHO)
        finally:
            os.close(opened)

    def end(self):
        subprocess.run([*self.tmux, "kill-server"], check=False, capture_output=True)


def within(seconds, holds):
    """What this is once it holds, or else what it is when the time is over."""
    end = time.monotonic() + seconds
    while not (result := holds()) and time.monotonic() < end:
        time.sleep(0.02)
    return result


def processes():
    """The processes that haven't ended: the number of each, with its parent's and its words."""
    found = {}
    for path in pathlib.Path("/proc").glob("[0-9]*"):
        try:
            state, parent = (path / "stat").read_text().rpartition(")")[2].split()[:2]
            words = (path / "cmdline").read_bytes().decode(errors="replace").split("\0")
        except OSError:
            continue
        if state != "Z":
            found[int(path.name)] = (int(parent), words)
    return found


def below(top, found):
    """Those of these processes that the one at the top started, or what it started."""
    inner = {top}
    for _ in found:
        more = {number for number, (parent, _) in found.items() if parent in inner} - inner
        if not more:
            break
        inner |= more
    return inner - {top}


class Interrupted:
    """The cases. `user` is a new user's home each time, with an agent of its own."""

    def __init__(self, cases, make_user):
        self.cases, self.make_user, self.count = cases, make_user, 0

    def groups(self):
        # What loses its parent is a child of this process meanwhile, so that nothing escapes.
        prctl = ctypes.CDLL(None).prctl
        prctl(PR_SET_CHILD_SUBREAPER, 1, 0, 0, 0)
        self.without_terminal()
        self.with_terminal()
        prctl(PR_SET_CHILD_SUBREAPER, 0, 0, 0, 0)

    def without_terminal(self):
        for number in (signal.SIGINT, signal.SIGTERM, signal.SIGHUP, signal.SIGQUIT, signal.SIGKILL):
            self.case(f"a prompt whose passphrase has {number.name}", lambda user: self.signalled(user, number))
        self.case("a prompt whose passphrase is stopped", lambda user: self.signalled(user, signal.SIGSTOP))
        self.case("a prompt whose time is over, by --timeout", self.timed_out)
        self.case("nothing is left running behind an answer", self.nothing_left)

    def with_terminal(self):
        if not shutil.which("tmux") or not shutil.which("pinentry-curses"):
            print("passed over: prompts in a terminal, since there is no tmux or no pinentry-curses", flush=True)
            return
        for name, act in [("Ctrl-C", lambda terminal: terminal.key("C-c")), ("Ctrl-\\", lambda terminal: terminal.key("C-\\")), ("Ctrl-Z", lambda terminal: terminal.key("C-z")),
                          ("kill -9", self.kill)]:
            self.case(f"a prompt in a terminal: {name}", lambda user: self.in_terminal(user, act))
        self.case("a prompt in a terminal that is closed", self.closed)
        self.case("a prompt in a terminal that is answered", self.answered)

    def case(self, name, holds):
        self.cases.case(name, lambda: self.tried(holds))

    def tried(self, holds):
        self.count += 1
        user = self.make_user(f"interrupted{self.count}")
        try:
            return holds(user)
        finally:
            user.end()
            self.reap()

    def reap(self):
        """Ends what was left to this process."""
        try:
            while os.waitpid(-1, os.WNOHANG)[0]:
                pass
        except ChildProcessError:
            pass

    # --- without a terminal

    def begun(self, user, *words):
        """A `passphrase` whose user types nothing, once its prompt is open."""
        user.folder(user.own)
        user.scripted.prompts()
        user.scripted.answers("wait")
        environment = as_bytes({**user.scripted.environment, **user.environment})
        started = subprocess.Popen(["passphrase", "--homedir", user.own, *words, NAME], stdin=subprocess.DEVNULL, stdout=subprocess.PIPE, stderr=subprocess.PIPE,
                                   start_new_session=True, env=environment)
        within(LIMIT, (user.scripted.asked / "prompts").exists)
        return started

    def pinentries(self, user):
        """The pinentries that run for this user: scripts, which are an interpreter's first word. The agent has their path behind its option."""
        return [number for number, (_, words) in processes().items() if words[1:2] == [str(user.scripted.pinentry)]]

    def signalled(self, user, number):
        started = self.begun(user)
        if not self.pinentries(user):
            return "there was no prompt"
        started.send_signal(number)
        gone = within(GONE_WITHIN, lambda: not self.pinentries(user))
        user.scripted.answers("full")
        began = time.monotonic()
        other = user.passphrase("--homedir", user.own, OTHER)
        took = time.monotonic() - began
        if number == signal.SIGSTOP:
            started.send_signal(signal.SIGCONT)
        out, told = started.communicate(timeout=LIMIT)
        if not gone:
            return f"the prompt stays for more than {GONE_WITHIN} s"
        if out or SECRET.encode() in told:
            return f"it wrote {len(out)} bytes, {told!r}"
        # Once it goes on it says that there was no answer.
        if number == signal.SIGSTOP and (started.returncode != 1 or not told):
            return f"status {started.returncode}, {told!r}"
        return user.wrong(other, 0, "full", "") or (f"the next prompt took {took:.1f} s" if took > GONE_WITHIN else "") or self.nothing_kept(user) or self.leftovers()

    def timed_out(self, user):
        started = self.begun(user, "--timeout", "1")
        out, told = started.communicate(timeout=LIMIT)
        gone = within(GONE_WITHIN, lambda: not self.pinentries(user))
        if (started.returncode, out) != (3, b"") or b"no answer within 1 seconds" not in told:
            return f"status {started.returncode}, {len(out)} bytes, {told!r}"
        return ("" if gone else "the prompt stays") or self.nothing_kept(user) or self.leftovers()

    def nothing_kept(self, user):
        return user.wrong(user.passphrase("--homedir", user.own, "--no-ask", NAME), 1, None, f"nothing is kept as {NAME}")

    def nothing_left(self, user):
        user.folder(user.own)
        user.scripted.answers(SECRET, "-")
        wrong = user.wrong(user.passphrase("--homedir", user.own, NAME), 0, SECRET, "") or user.wrong(user.passphrase("--homedir", user.own, NAME), 0, SECRET, "")
        wrong = wrong or user.wrong(user.passphrase("--homedir", user.own, OTHER), 1, None, f"the prompt for {OTHER} was cancelled")
        return wrong or self.leftovers()

    def leftovers(self):
        """What runs on that is no part of a daemon: its program, its watcher, and what they started."""
        def left():
            self.reap()
            found = processes()
            ours = below(os.getpid(), found)
            daemons = {number for number in ours if any(re.search("agent_program$|/gpg-agent$|^gpg-agent$|^tmux", word) for word in found[number][1][:2])}
            return {number: found[number][1] for number in ours - daemons - {inner for number in daemons for inner in below(number, found)}}

        within(GONE_WITHIN, lambda: not left())
        rest = left()
        return f"left running: {rest}" if rest else ""

    # --- in a terminal

    def opened(self, user):
        """A terminal in which a prompt for NAME is drawn."""
        user.own.mkdir(mode=0o700, parents=True)
        user.folders.append(user.own)
        (user.own / "gpg-agent.conf").write_text(f"pinentry-program {shutil.which('pinentry-curses')}\n")
        environment = {**user.scripted.environment, **user.environment, "GNUPGHOME": str(user.own), "PS1": "$ "}
        terminal = Terminal(user.place, {name: value for name, value in environment.items() if name != "GPG_TTY"})
        self.before = terminal.modes()
        self.call(terminal, NAME)
        return terminal

    def call(self, terminal, name):
        terminal.type(f"passphrase --homedir \"$GNUPGHOME\" {name}")

    def in_terminal(self, user, act):
        terminal = self.opened(user)
        try:
            return self.interrupted(user, terminal, act)
        finally:
            terminal.end()

    def curses(self, user):
        """The pinentries that the agent of this user runs."""
        number = user.told(user.own, "GETINFO pid").partition("\n")[0][2:]
        found = processes()
        return [inner for inner in below(int(number), found) if "pinentry-curses" in found[inner][1][0]] if number.isdigit() else []

    def interrupted(self, user, terminal, act):
        if not terminal.prompts() or not self.curses(user):
            return f"there was no prompt: {terminal.screen().strip()!r}"
        act(terminal)
        if not within(GONE_WITHIN, lambda: not self.curses(user)):
            return f"the prompt stays for more than {GONE_WITHIN} s"
        if not terminal.obeys() or not terminal.obeys():
            return f"what is typed isn't the shell's alone: {terminal.screen().strip()!r}"
        if (modes := terminal.modes()) != self.before:
            return f"the terminal has other modes: {modes!r}, not {self.before!r}"
        if wrong := self.nothing_kept(user):
            return wrong
        self.call(terminal, OTHER)
        if not terminal.shows("<OK>", GONE_WITHIN):
            return f"no further prompt is drawn: {terminal.screen().strip()!r}"
        # By then no guard but its own has to do with the terminal.
        time.sleep(GUARDED)
        if terminal.echoes():
            return "the terminal shows what is typed into the next prompt"
        terminal.type(SECRET)
        return ("" if terminal.shows(f"^{SECRET}$") else "the next prompt gives nothing") or self.nothing_kept(user) or self.leftovers()

    def kill(self, _):
        for number, (_, words) in processes().items():
            if NAME in words and any(pathlib.Path(word).name == "passphrase" for word in words[:2]):
                os.kill(number, signal.SIGKILL)

    def closed(self, user):
        terminal = self.opened(user)
        try:
            if not terminal.prompts() or not self.curses(user):
                return f"there was no prompt: {terminal.screen().strip()!r}"
        finally:
            terminal.end()
        if not within(GONE_WITHIN, lambda: not self.curses(user)):
            return f"the prompt stays for more than {GONE_WITHIN} s"
        return self.nothing_kept(user) or self.leftovers()

    def answered(self, user):
        """Nobody interrupts it: the terminal is as it was, and the passphrase is kept."""
        terminal = self.opened(user)
        try:
            if not terminal.prompts():
                return f"there was no prompt: {terminal.screen().strip()!r}"
            terminal.type(SECRET)
            if not terminal.shows(f"^{SECRET}$") or not terminal.obeys():
                return repr(terminal.screen().strip())
            return ("" if terminal.modes() == self.before else "the terminal has other modes") or user.wrong(user.passphrase("--homedir", user.own, "--no-ask", NAME), 0, SECRET, "")
        finally:
            terminal.end()
