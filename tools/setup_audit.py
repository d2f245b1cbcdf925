"""What `dogwoodcatch-setup --check` sees: the cases of `setup-cases` that look at a home folder and its agent, and the clients that hold an agent's workers."""
import ctypes
import os
import pathlib
import shutil
import sys
import time

sys.path.insert(0, str(pathlib.Path(__file__).resolve().parent / "with-gnupg"))
from harness.clients import linked
from scripted import LIMIT

NOBODY = 65534

# How many clients the agent serves at a time.
WORKERS = 64

# Lines of start files, and whether ssh asks gpg-agent by them.
SSH_LINES = [
    ("export SSH_AUTH_SOCK=$(gpgconf --list-dirs agent-ssh-socket)", True), ('  SSH_AUTH_SOCK="$HOME/.gnupg/S.gpg-agent.ssh"; export SSH_AUTH_SOCK', True), ("# export SSH_AUTH_SOCK=$(gpgconf --list-dirs agent-ssh-socket)", False),
    ("export SSH_AUTH_SOCK=/run/user/1000/openssh_agent", False),
]

# Lines of gpg-agent.conf at the start of a daemon, lines by which they are replaced, and what is told of it then, {} being the user's home folder: nothing where the daemon is
# told the same by both.
RUNNING = [
    (["default-cache-ttl 10"], ["default-cache-ttl 86400"], ["with default-cache-ttl 10, the file says 86400"]),
    (["default-cache-ttl 10"], ["default-cache-ttl 10"], []),
    (["max-cache-ttl 007"], ["max-cache-ttl = 7 # seconds"], []),
    (["max-cache-ttl 2147483647"], ["max-cache-ttl 99999999999"], []),
    (["default-cache-ttl 10", "default-cache-ttl 20"], ["default-cache-ttl 10"], ["with default-cache-ttl 20, the file says 10"]),
    (["default-cache-ttl 10", "max-cache-ttl 20"], [], ["with default-cache-ttl 10, of which no file says anything", "with max-cache-ttl 20, of which no file says anything"]),
    ([], ["min-passphrase-len 12"], ["with min-passphrase-len 8, the file says 12"]),
    ([], ["pinentry-timeout 60"], ["with pinentry-timeout 300, the file says 60"]),
    (["pinentry-timeout 300"], [], []),
    (["pinentry-program ~/pinentry"], ['pinentry-program "{}/pinentry"'], []),
    (["pinentry-program /bin/false"], [], ["with pinentry-program /bin/false, the file says /bin/true"]),
    ([], ["allow-preset-passphrase"], ["without allow-preset-passphrase, which the file says"]),
    (["allow-preset-passphrase"], ["allow-preset-passphrase\r"], []),
    (["no-allow-loopback-pinentry"], ["no-allow-loopback-pinentry", "allow-loopback-pinentry"], ["with no-allow-loopback-pinentry, of which no file says anything"]),
    ([], ["extra-socket S.gpg-agent.extra"], ["without extra-socket, which the file says"]),
    (["extra-socket {}/.gnupg/S.gpg-agent.extra"], ["extra-socket none"], ["with extra-socket, of which no file says anything"]),
]

# Lines of gpg-agent.conf with which no agent starts, and a part of what is told of each.
KEPT_OUT = [("no-allow-mark-trusted", "MARKTRUSTED"), ("default-cache-ttl ten", "it wants a number"), ("min-passphrase-len 300", "counts up to 255"), ("defalt-cache-ttl 5", "gpg-agent has no such option")]

# A line of the trust list, and what it is to be where it doesn't count.
PRINT = "0123456789ABCDEF0123456789abcdef01234567"
PAIRS, CAPITALS = ":".join(PRINT[at:at + 2] for at in range(0, 40, 2)), PRINT.upper()
NO_PRINT = "take it out, or write 40 hexadecimal digits and S, behind ! where they are not to be trusted"
TRUST_LINES = [
    ("# a comment", None), ("\t # another", None), ("", None), (" \t", None), ("\r", None), (f"{PRINT} S", None), (f"  {PAIRS}\t \t* relax cm", None), (f"!{PRINT} P", None), (f"!{PAIRS} S relax\r", None),
    (f"! {PRINT} S", f"write !{CAPITALS} S"), (f"!\t{PAIRS} P", f"write !{CAPITALS} P"), (f"!{PRINT}", f"write !{CAPITALS} S"), (f"!{PRINT}\r", f"write !{CAPITALS} S, and no CR behind it"),
    (f"!{PRINT} S\r", f"write !{CAPITALS} S, and no CR behind it"), (f"!{PAIRS} *\r", f"write !{CAPITALS} *, and no CR behind it"), (f"! {PRINT}", f"write !{CAPITALS} S"), (f"!{PRINT} s", f"write !{CAPITALS} S"),
    (f"!{PRINT[:1]}:{PRINT[1:]} S", f"write !{CAPITALS} S"), (f"!{PRINT}: S", f"write !{CAPITALS} S"), (f"{PRINT}", f"write {CAPITALS} S"), (f"{PRINT} p", f"write {CAPITALS} P"), (f"{PAIRS} S\r", f"write {CAPITALS} S, and no CR behind it"),
    (f"{PRINT} SP", f"write {CAPITALS} S"), (f"!!{PRINT} S", NO_PRINT), (f"!{PRINT[:-1]} S", NO_PRINT), (f"!{PRINT}0 S", NO_PRINT), (f"{PRINT[:-1]}G S", NO_PRINT), ("include-default", NO_PRINT), ("!", NO_PRINT),
]

# What a terminal would obey, or what a shell's echo would make that of: a title, and an empty screen. And what is written of it.
OBEYED = [(b"\x1b]0;OWN\x07\x1b[2J", "?]0;OWN??[2J"), (rb"\033[2J\007\c", r"\033[2J\007\c")]

# Stands for systemctl, and tells what it was asked.
SYSTEMCTL = """#!/bin/sh
echo "$*" >>"$(dirname "$0")/asked"
case $2 in is-enabled) echo enabled ;; esac
"""


def wrong(done, status, *says):
    """What is otherwise of how it ended and what it said, on either output."""
    told = done.stdout + done.stderr
    missing = [text for text in says if text not in told]
    return f"status {done.returncode}, without {missing}: {told!r}" if done.returncode != status or missing else ""


class Clients:
    """So many clients of the user's agent, all in one process of this user's and of this name, while this is entered."""

    def __init__(self, user, count, name=b"client", number=None):
        self.path, self.count, self.name, self.number = str(user.gnupg / "S.gpg-agent"), count, name, number

    def __enter__(self):
        ready, self.hold = os.pipe(), os.pipe()
        self.pid = os.fork()
        if self.pid == 0:
            try:
                os.close(self.hold[1])
                self.connect()
                os.write(ready[1], b".")
                os.read(self.hold[0], 1)
            finally:
                os._exit(0)
        os.close(ready[1])
        os.read(ready[0], 1)
        os.close(ready[0])
        return self

    def __exit__(self, *_):
        os.close(self.hold[1])
        os.close(self.hold[0])
        os.waitpid(self.pid, 0)

    def connect(self):
        if self.number is not None:
            os.setgroups([])
            os.setgid(self.number)
            os.setuid(self.number)
        # Its user may see its descriptors, and that is its name (prctl(2)).
        ctypes.CDLL(None).prctl(4, 1, 0, 0, 0)
        ctypes.CDLL(None).prctl(15, self.name, 0, 0, 0)
        self.links = [linked(self.path) for _ in range(self.count)]
        for link in self.links[:WORKERS]:
            link.recv(100)


class Audit:
    """What --check sees. The user is one to whom the system closes what is root's."""

    def __init__(self, cases, is_user=True):
        self.cases = cases
        self.as_user = {"user": NOBODY, "group": NOBODY, "extra_groups": []} if is_user and os.geteuid() == 0 else {}
        self.user_number = self.as_user.get("user")

    def groups(self):
        cases = self.cases
        for name, holds in [
            ("check: this agent answers", self.this), ("check: GnuPG's own answers", self.gnupg), ("check: none answers, and it is set up", self.none), ("check: none answers, and it isn't set up", self.not_set_up),
            ("check: this agent, whose program its user may read", self.readable), ("check: all workers have clients", self.full), ("clients: two, and none", self.clients), ("clients: a name that a terminal would obey", self.named_clients),
            ("check: lines of the trust list", self.trust_lines), ("check: a trust list whose lines count", self.trusted), ("check: the folder is open to others", self.open_folder), ("check: no pinentry", self.no_pinentry),
            ("check: another socket, and a pinentry for terminals", self.extra_terminal), ("check: another socket, and a pinentry for a display", self.extra_display), ("check: secret keys", self.with_keys), ("check: secret keys, and it isn't set up", self.with_keys_alone),
            ("check: a folder that its owner has closed", self.closed_folder), ("a folder that its owner has closed", self.closed_set_up), ("check: the terminal", self.terminal), ("check: no terminal", self.no_terminal),
            ("check: another user's terminal", self.others_terminal), ("check: a display", self.display), ("check: ssh asks gpg-agent", self.ssh), ("check: ssh asks gpg-agent, and it isn't set up", self.ssh_alone),
            ("check: ssh asks gpg-agent by start files", self.ssh_files), ("check: the options that the daemon has written down", self.written_options), ("what is to be done is told behind the set-up", self.told_behind),
            ("check: the own folder, by its mark", self.marked), ("check: options that aren't kept", self.options), ("check: systemd listens", self.systemd), ("check: it changes nothing", self.changes_nothing),
        ]:
            cases.case(name, self.given, holds)
        for before, after, lines in RUNNING:
            cases.case(f"check: the daemon runs with {', '.join(before) or 'no lines'}, the file says {', '.join(after) or 'nothing'}", self.running, before, after, lines)
        for line, says in KEPT_OUT:
            cases.case(f"no agent starts by the line {line}", self.kept_out, line, says)
        if self.as_user:
            for name, holds in [("check: all is well", self.well), ("check: a program that is open", self.open_program), ("check: a program that its user may change", self.own_program),
                                ("check: a build that is older than the program", self.older)]:
                cases.case(name, self.given, holds, alone=True)
            cases.case("check: a build that is older than the program, as root", Audit(cases, is_user=False).older, alone=True)

    def given(self, user, holds):
        """As a case of what `holds` for the user to whom the files belong."""
        self.give(user)
        return holds(user)

    def give(self, user):
        """The user's files are the user's."""
        if self.as_user:
            for path in (user.place, *user.place.rglob("*")):
                os.chown(path, NOBODY, NOBODY, follow_symlinks=False)

    def check(self, user, **more):
        self.give(user)
        return user.setup("--check", **self.as_user, **more)

    def start(self, user, *lines):
        """A folder that is set up, with a pinentry that is there, and its agent, with these lines of gpg-agent.conf."""
        self.folder(user, *lines)
        return wrong(user.setup(**self.as_user), 0) or wrong(user.run(self.cases.program, "--homedir", user.gnupg, **self.as_user), 0)

    def folder(self, user, *lines):
        user.conf("")
        (user.gnupg / "gpg-agent.conf").write_text("".join(line + "\n" for line in ("pinentry-program /bin/true", *lines)))
        self.give(user)

    def number(self, user):
        return user.told("GETINFO pid").partition("\n")[0][2:]

    def says(self, done, first, *lines):
        """What is otherwise of the first line, and of whether a line begins so."""
        told = done.stdout.split("\n")
        missing = [line for line in lines if not any(one.startswith(line) for one in told)]
        return "" if told[0].startswith(f"dogwoodcatch-setup: {first}") and not missing else f"without {missing}: {done.stdout}{done.stderr}"

    def this(self, user):
        told = self.start(user)
        return told or self.says(self.check(user), f"Dogwoodcatch's agent answers for {user.gnupg} (process {self.number(user)})", "ok: gpg starts this agent", f"ok: {user.gnupg} is yours alone",
                                 "ok: the daemon is the build", "ok: no line of your start files", "ok: no socket for other machines")

    def gnupg(self, user):
        self.folder(user)
        user.run("gpgconf", "--launch", "gpg-agent", **self.as_user)
        done = self.check(user)
        return self.says(done, f"GnuPG's own gpg-agent answers for {user.gnupg} (process ", "to do: gpg starts GnuPG's own agent") or wrong(done, 1)

    def readable(self, user):
        """The system tells its path then, as it doesn't of one that is installed."""
        self.folder(user)
        named = user.place / "gpg-agent"
        shutil.copy(self.cases.program, named)
        named.chmod(0o755)
        started = user.run(named, "--homedir", user.gnupg, **self.as_user)
        return wrong(started, 0) or self.says(self.check(user), f"Dogwoodcatch's agent answers for {user.gnupg} (process {self.number(user)})")

    def none(self, user):
        user.setup(**self.as_user)
        done = self.check(user)
        return self.says(done, f"no agent answers for {user.gnupg}; gpg starts ours when it first wants one", "note: ") or wrong(done, 1)

    def not_set_up(self, user):
        done = self.check(user)
        return self.says(done, f"no agent answers for {user.gnupg}; gpg starts GnuPG's own when", f"note: there is no {user.gnupg}", "to do: gpg starts GnuPG's own agent") or wrong(done, 1)

    def full(self, user):
        told = self.start(user)
        if told:
            return told
        with Clients(user, WORKERS + 1, number=self.user_number) as clients:
            done = self.check(user)
            who = f" client {clients.pid}" if shutil.which("ss") else ""
            return self.says(done, f"all workers of the agent of {user.gnupg} have clients: end some of these {WORKERS}") or wrong(done, 1, who)

    def clients(self, user):
        told = self.start(user)
        if told:
            return told
        with Clients(user, 2, number=self.user_number) as clients:
            here = user.setup("--clients", **self.as_user).stdout
            # Root sees whose they are, in a folder that it wouldn't set up.
            seen = user.setup("--clients").stdout
        end = time.monotonic() + LIMIT
        while (gone := user.setup("--clients").stdout) != "0\n" and time.monotonic() < end:
            time.sleep(0.1)
        wanted = f"2: client {clients.pid}\n" if shutil.which("ss") else "2\n"
        return "" if (here, seen, gone) == (wanted, wanted, "0\n") else f"{here!r}, {seen!r}, {gone!r}"

    def named_clients(self, user):
        told = self.start(user)
        if told:
            return told
        for name, shown in OBEYED:
            with Clients(user, WORKERS, name, self.user_number) as clients:
                who = f"{WORKERS}: {shown} {clients.pid}" if shutil.which("ss") else f"{WORKERS}"
                done, checked = user.setup("--clients", **self.as_user), self.check(user)
                told = ("" if done.stdout == f"{who}\n" else repr(done.stdout)) or wrong(checked, 1, f"end some of these {who}\n") or ("it has an escape" if "\x1b" in checked.stdout else "")
                if told:
                    return told
        return ""

    def trust_lines(self, user):
        """Each line by itself: what is said of it, and whether the agent takes it for an entry."""
        told = self.start(user)
        if told:
            return told
        listed = user.gnupg / "trustlist.txt"
        listed.write_bytes("".join(f"{line}\n" for line, _ in TRUST_LINES).encode()[:-1])
        done = self.check(user)
        wanted = [f"to do: line {number} of trustlist.txt counts for nothing: {says}" for number, (_, says) in enumerate(TRUST_LINES, 1) if says]
        found = [line for line in done.stdout.split("\n") if "trustlist.txt" in line]
        if found != wanted or done.returncode != 1:
            return f"status {done.returncode}, {[line for line in found if line not in wanted]}, without {[line for line in wanted if line not in found]}"
        for line, says in TRUST_LINES:
            shuts = line.startswith("!")
            # The first entry for a fingerprint decides.
            listed.write_bytes(f"{line}\n{f'{PRINT} S' if shuts else ''}\n".encode())
            answer = user.told(f"ISTRUSTED {PRINT}")
            counts = answer.startswith("ERR 67108962") if shuts else answer.startswith("OK")
            if counts != (says is None and PRINT[:2] in line):
                return f"{line!r}: {answer!r}"
        return ""

    def trusted(self, user):
        self.folder(user)
        (user.gnupg / "trustlist.txt").write_bytes("".join(f"{line}\n" for line, says in TRUST_LINES if says is None).encode())
        return self.says(self.check(user), "no agent answers", "ok: each line of trustlist.txt counts")

    def open_folder(self, user):
        told = self.start(user)
        user.gnupg.chmod(0o750)
        return told or self.says(self.check(user), "Dogwoodcatch's", f"to do: others may enter {user.gnupg} (mode 750): chmod go= {user.gnupg}")

    def closed_folder(self, user):
        self.folder(user)
        user.setup(**self.as_user)
        return self.closed(user, "--check", lambda mode: f"to do: no agent can start in {user.gnupg}: you may not read, write and enter it (mode {mode:o}): chmod u+rwx {user.gnupg}\n")

    def closed_set_up(self, user):
        self.folder(user)
        (user.gnupg / "gpg.conf").unlink()
        return self.closed(user, "--force", lambda mode: f"dogwoodcatch-setup: nothing was changed, since the agent couldn't start in {user.gnupg}: you may not read, write and enter it (mode {mode:o}): chmod u+rwx {user.gnupg}\n")

    def closed(self, user, word, says):
        """What is otherwise for each mode by which a user closes the folder, which root wouldn't see."""
        if os.geteuid() == 0 and not self.as_user:
            return ""
        for mode in (0o500, 0o300, 0o600, 0o000):
            user.gnupg.chmod(mode)
            done = user.setup(word, **self.as_user)
            user.gnupg.chmod(0o700)
            told = wrong(done, 1, says(mode)) or ("gpg.conf was written" if word != "--check" and user.conf() is not None else "")
            if told:
                return told
        return "" if word == "--check" else wrong(user.setup(**self.as_user), 0, "wrote to")

    def looked(self, user, environment=None, owner=None):
        """What the audit says in a terminal of its own, and the terminal."""
        self.give(user)
        return user.in_terminal("dogwoodcatch-setup", "--check", environment=environment, owner=self.user_number if owner is None else owner, **self.as_user)

    def terminal(self, user):
        told = self.start(user)
        (user.place / "file").write_text("")
        in_file = "put export GPG_TTY=$(tty) into your shell's start file"
        for value, says in (("", f"to do: GPG_TTY isn't set, so that a prompt has no terminal: {in_file}"), ("{}", "ok: prompts are drawn in {}"), ("/dev/null", f"to do: GPG_TTY names /dev/null, and this terminal is {{}}: {in_file}"),
                            (f"{user.place}/file", f"to do: GPG_TTY names {user.place}/file, and this terminal is {{}}: {in_file}")):
            done, name = self.looked(user, {"GPG_TTY": value})
            told = told or self.says(done, "Dogwoodcatch's", says.replace("{}", name))
        return told or self.says(self.check(user, environment={"GPG_TTY": f"{user.place}/file"}), "Dogwoodcatch's", f"to do: GPG_TTY names {user.place}/file, which is no terminal")

    def no_terminal(self, user):
        return self.start(user) or self.says(self.check(user), "Dogwoodcatch's", "note: GPG_TTY isn't set, and there is no terminal here")

    def others_terminal(self, user):
        """As `su` leaves it."""
        if not self.as_user:
            return ""
        done, name = self.looked(user, {"GPG_TTY": "{}"}, owner=0)
        return self.says(done, "no agent answers", f"to do: the terminal {name} belongs to root, as after su, so that no prompt can be drawn there: log in as nobody (ssh, machinectl shell), or chown it")

    def display(self, user):
        program = user.place / "pinentry-gnome3"
        program.write_text("#!/bin/sh\n")
        program.chmod(0o755)
        self.folder(user, f"pinentry-program {program}")
        return self.says(self.looked(user, {"DISPLAY": ":0"})[0], "no agent answers", "ok: prompts are drawn on the display") or self.says(self.looked(user)[0], "no agent answers", "to do: GPG_TTY isn't set")

    def ssh(self, user):
        self.folder(user, "enable-ssh-support")
        user.setup(**self.as_user)
        socket_name = f"{user.gnupg}/S.gpg-agent.ssh"
        done, other = (self.check(user, environment={"SSH_AUTH_SOCK": name}) for name in (socket_name, "/none"))
        told = self.says(done, "no agent answers", f"to do: {user.gnupg}/gpg-agent.conf, line 2, is passed over: enable-ssh-support", f"to do: ssh asks at {socket_name} (SSH_AUTH_SOCK), where nobody answers, as this agent serves no ssh: use ssh-agent")
        return told or ("it says so of another one's" if "ssh asks" in other.stdout else "")

    def ssh_alone(self, user):
        self.folder(user, "enable-ssh-support")
        done = self.check(user, environment={"SSH_AUTH_SOCK": f"{user.gnupg}/S.gpg-agent.ssh"})
        return "gpg-agent serves ssh there" if "ssh asks" in done.stdout else ""

    def ssh_files(self, user):
        (user.place / ".bashrc").write_text("".join(f"{line}\n" for line, _ in SSH_LINES))
        self.folder(user)
        done, checked = user.setup(**self.as_user).stdout, self.check(user).stdout
        says = "to do: take this line out, by which ssh asks gpg-agent, as this agent serves no ssh: "
        wanted = [f"{says}{user.place}/.bashrc:{number}:{line}" for number, (line, asks) in enumerate(SSH_LINES, 1) if asks]
        return next((text for text in (done, checked) if [line for line in text.split("\n") if line.startswith(says)] != wanted), "")

    def running(self, user, before, after, lines):
        self.give(user)
        told = self.start(user, *(line.replace("{}", str(user.place)) for line in before))
        self.folder(user, *(line.replace("{}", str(user.place)) for line in after))
        begins = "to do: the agent still runs "
        wanted = [f"{begins}{line}: gpgconf --homedir {user.gnupg} --kill gpg-agent (what it keeps is lost)" for line in lines]
        done = self.check(user)
        found = [line for line in done.stdout.split("\n") if line.startswith(begins)]
        return told or ("" if found == wanted and ("ok: the daemon runs with the options of the files" in done.stdout) == (not lines) else done.stdout)

    def written_options(self, user):
        """What stands there counts, as long as it is of this daemon's start."""
        told = self.start(user, "default-cache-ttl 10")
        listed = user.gnupg / "agent.options"
        if not told:
            listed.write_text(listed.read_text().replace("--default-cache-ttl=10\n", "--default-cache-ttl=7\n"))
        done = self.check(user)
        os.utime(listed, (1, 1))
        return told or self.says(done, "Dogwoodcatch's", "to do: the agent still runs with default-cache-ttl 7, the file says 10") or self.says(self.check(user), "Dogwoodcatch's", "note: the options that the daemon runs with are not seen")

    def kept_out(self, user, line, says):
        self.folder(user, line)
        (user.gnupg / "gpg.conf").unlink()
        done = user.setup(**self.as_user)
        first = f"dogwoodcatch-setup: nothing was changed, since the agent couldn't start in {user.gnupg}: {user.gnupg}/gpg-agent.conf, line 2, keeps the agent from starting: {line}"
        return wrong(done, 1, first, says) or ("gpg.conf was written" if user.conf() is not None else "")

    def told_behind(self, user):
        """Also where nothing is changed."""
        self.folder(user, "pinentry-program /none")
        for says in ("wrote to", "nothing was changed"):
            done = user.setup(**self.as_user)
            lines = done.stdout.split("\n")
            told = wrong(done, 0, says) or ("" if any(line.startswith("to do: nobody can be asked, as there is no /none") for line in lines) else done.stdout)
            if told:
                return told
        return ""

    def no_pinentry(self, user):
        told = self.start(user, "pinentry-program /none")
        return told or self.says(self.check(user), "Dogwoodcatch's", "to do: nobody can be asked, as there is no /none")

    def extra(self, user, name):
        program = user.place / name
        program.write_text("#!/bin/sh\n")
        program.chmod(0o755)
        return self.start(user, f"pinentry-program {program}", f"extra-socket {user.gnupg}/S.gpg-agent.extra")

    def extra_terminal(self, user):
        return self.extra(user, "pinentry-curses") or self.says(self.check(user), "Dogwoodcatch's", "to do: other machines are served")

    def extra_display(self, user):
        return self.extra(user, "pinentry-gnome3") or self.says(self.check(user), "Dogwoodcatch's", "ok: other machines are served")

    def with_keys(self, user):
        user.keys()
        self.give(user)
        return wrong(user.setup("--force", **self.as_user), 0) or self.says(self.check(user), "no agent answers", f"note: {user.gnupg} has secret keys (1)")

    def with_keys_alone(self, user):
        user.keys()
        done = self.check(user)
        return self.says(done, "no agent answers", f"note: {user.gnupg} has secret keys (1)", "note: gpg starts GnuPG's own agent") or ("it is to be set up" if "dogwoodcatch-setup --homedir" in done.stdout else "")

    def marked(self, user):
        own = user.place / "own"
        user.folders.append(own)
        told = wrong(user.run("passphrase", "--homedir", own, "--no-ask", "id", **self.as_user), 1)
        (own / "gpg-agent.conf").write_text("# dogwoodcatch: this folder is for its agent\n")
        self.give(user)
        done = user.setup("--check", "--homedir", own, **self.as_user)
        return told or self.says(done, f"Dogwoodcatch's agent answers for {own}", "ok: gpg starts this agent, or the folder is for it alone")

    def options(self, user):
        """As the program says."""
        self.folder(user, "enable-ssh-support")
        user.setup(**self.as_user)
        return self.says(self.check(user), "no agent answers", f"to do: {user.gnupg}/gpg-agent.conf, line 2, is passed over: enable-ssh-support")

    def systemd(self, user):
        systemd = user.place / "systemd"
        systemd.mkdir()
        (systemd / "systemctl").write_text(SYSTEMCTL)
        (systemd / "systemctl").chmod(0o755)
        user.conf(self.cases.block())
        done = self.check(user, environment={"PATH": f"{systemd}:{user.environment['PATH']}"})
        return self.says(done, "no agent answers", "to do: systemd starts GnuPG's own agent")

    def changes_nothing(self, user):
        self.folder(user)
        user.setup(**self.as_user)
        before = user.files()
        self.check(user)
        return "" if user.files() == before else str(user.files())

    @staticmethod
    def is_sound(done):
        """Whether nothing is to be done on this machine."""
        return "to do: " not in done.stdout

    def open_program(self, user):
        program = self.cases.program
        program.chmod(0o755)
        try:
            told = self.start(user)
            done = self.check(user)
            return told or self.says(done, "Dogwoodcatch's", f"to do: any program of yours may read {program}", f"to do: any program of yours may read the memory and the environment of the daemon (/proc/{self.number(user)}/environ") or wrong(done, 1)
        finally:
            program.chmod(0o711)

    def own_program(self, user):
        program = self.cases.program
        os.chown(program, NOBODY, NOBODY)
        try:
            return self.start(user) or self.says(self.check(user), "Dogwoodcatch's", f"to do: {program} may be changed by others than root (it is nobody's, of mode 711)")
        finally:
            os.chown(program, 0, 0)
            program.chmod(0o711)

    def older(self, user):
        """Another file of that name, as a package's upgrade puts it there."""
        program = self.cases.program
        told = self.start(user)
        time.sleep(2)
        shutil.copy(program, f"{program}.new")
        os.chmod(f"{program}.new", 0o711)
        os.utime(f"{program}.new", (0, 0))
        os.rename(f"{program}.new", program)
        says = f"to do: the daemon that runs was started before {program} was installed"
        told = told or self.says(self.check(user), "Dogwoodcatch's", says)
        return told or wrong(user.run("gpgconf", "--kill", "gpg-agent"), 0) or self.start(user) or self.says(self.check(user), "Dogwoodcatch's", "ok: the daemon is the build that is installed")

    def well(self, user):
        """Nothing is to be done, but for what is this machine's: its swap, and its core dumps."""
        told = self.start(user)
        done = self.check(user)
        bad = [line for line in done.stdout.split("\n") if line.startswith("to do: ") and "swap" not in line and "core dump" not in line and "may be changed by others" not in line]
        told = told or ("" if bad or not self.is_sound(done) else wrong(user.setup(**self.as_user), 0, "dogwoodcatch-setup: nothing is to be done\n"))
        return told or ("\n".join(bad) if bad else self.says(done, "Dogwoodcatch's", "ok: the memory and the environment of the daemon are closed"))
