"""Whose the folders, sockets and programs are that `passphrase` takes, for `tools/passphrase-cases`. Another user is nobody, where root runs this."""
import contextlib
import os
import socket

from folders import User

NOBODY = 65534
SECRET = b"Tr0ub4dor secret"
CLOSE = "take a folder of your own"


class Owners:
    """What is another user's, or what others may write, is refused in one line before anything in it is read, written or asked."""

    def __init__(self, cases):
        self.cases, self.count = cases, 0

    def groups(self):
        for name, holds in [
            ("a home folder of another user's", self.anothers_home), ("a home folder that others may write in, with another user's socket", self.open_home),
            ("a home folder of mode 0770", self.group_home), ("a named folder that others may write in", self.open_named), ("the own folder, where others may write", self.open_own),
            ("a folder above in which others may write", self.open_above), ("a folder above in which others may write, and no home folder yet", self.open_above_missing),
            ("a folder above of another user's", self.anothers_above), ("a folder above with the sticky bit", lambda user: self.passes(user, 0o700, 0o1777)),
            ("a home folder of mode 0750", lambda user: self.passes(user, 0o750, 0o755)), ("another user's socket in one's own folder", self.anothers_socket),
            ("a redirect file to another user's folder", self.redirect_to_folder), ("a redirect file to another user's socket", self.redirect_to_socket),
            ("a redirect file to a socket where others may write", self.redirect_to_open), ("agent-program of another user's, in a folder dogwoodcatch", self.anothers_program),
            ("an agent that others may change", self.open_program),
        ]:
            self.cases.case(name, lambda: self.tried(holds))

    def tried(self, holds):
        self.count += 1
        user = User(self.cases, f"owner{self.count}")
        user.place.chmod(0o755)
        try:
            return holds(user)
        finally:
            # No agent has it there.
            (user.home / "S.gpg-agent").unlink(missing_ok=True)
            user.end()

    def refused(self, user, says, *words, **more):
        """Status 3 and one line, whatever is wanted, and nothing is made."""
        before = sorted(user.place.rglob("*"))
        for wanted, data in ((["--store", "id"], SECRET), (["--no-ask", "id"], b""), (["id"], b"")):
            done = user.passphrase(*words, *wanted, data=data, **more)
            if wrong := user.wrong(done, 3, None, says):
                return wrong
            if done.stderr.count(b"\n") != 1:
                return f"more lines than one: {done.stderr!r}"
        return "" if sorted(user.place.rglob("*")) == before else "files were made"

    @contextlib.contextmanager
    def listening(self, path, owner=None):
        """A socket at this path, of this owner. Who connects to it is told by `heard`."""
        with socket.socket(socket.AF_UNIX) as listener:
            listener.bind(str(path))
            if owner is not None:
                os.chown(path, owner, owner)
            listener.listen()
            listener.setblocking(False)
            yield listener

    def heard(self, listener):
        with contextlib.suppress(BlockingIOError):
            listener.accept()[0].close()
            return "it was connected to"
        return ""

    def open_note(self, path, mode):
        return f"passphrase: others may write in the folder {path} (mode {mode}): chmod go-w {path}\n"

    def folder(self, path, mode=0o700, owner=None):
        path.mkdir(parents=True)
        path.chmod(mode)
        if owner is not None:
            os.chown(path, owner, owner)
        return path

    def anothers_home(self, user):
        if os.geteuid():
            return ""
        self.folder(user.home, owner=NOBODY)
        with self.listening(user.home / "S.gpg-agent", NOBODY) as listener:
            says = f"passphrase: the folder {user.home} belongs to user {NOBODY}, and not to user 0: {CLOSE}\n"
            return self.refused(user, says) or self.refused(user, says, "--homedir", user.home) or self.heard(listener)

    def open_home(self, user):
        self.folder(user.home, 0o777)
        with self.listening(user.home / "S.gpg-agent", None if os.geteuid() else NOBODY) as listener:
            return self.refused(user, self.open_note(user.home, "0777")) or self.heard(listener)

    def group_home(self, user):
        return self.refused(user, self.open_note(self.folder(user.home, 0o770), "0770"))

    def open_named(self, user):
        return self.refused(user, self.open_note(self.folder(user.place / "named", 0o777), "0777"), "--homedir", user.place / "named")

    def open_own(self, user):
        return self.refused(user, self.open_note(self.folder(user.own, 0o777), "0777"))

    def open_above(self, user):
        above = self.folder(user.place / "above", 0o777)
        return self.refused(user, self.open_note(above, "0777"), "--homedir", self.folder(above / "home"))

    def open_above_missing(self, user):
        above = self.folder(user.place / "above", 0o775)
        return self.refused(user, self.open_note(above, "0775"), "--homedir", above / "home")

    def anothers_above(self, user):
        if os.geteuid():
            return ""
        above = self.folder(user.place / "above", 0o755, NOBODY)
        says = f"passphrase: the folder {above} belongs to user {NOBODY}, and neither to user 0 nor to root: {CLOSE}\n"
        return self.refused(user, says, "--homedir", self.folder(above / "home"))

    def passes(self, user, mode, above):
        """An agent is started there, and answers."""
        up = self.folder(user.place / "above", above)
        home = self.folder(up / "home", mode)
        user.folder(home, "# dogwoodcatch: this folder is for its agent")
        for _ in range(2):
            if wrong := user.wrong(user.passphrase("--homedir", home, "--no-ask", "id"), 1, None, "nothing is kept as id"):
                return wrong
        return "" if user.agent(home) == "ours" else "no agent"

    def anothers_socket(self, user):
        if os.geteuid():
            return ""
        path = self.folder(user.home) / "S.gpg-agent"
        with self.listening(path, NOBODY) as listener:
            return self.refused(user, f"passphrase: the socket {path} belongs to user {NOBODY}, and not to user 0: remove it\n") or self.heard(listener)

    def redirect(self, user, path):
        (self.folder(user.home) / "S.gpg-agent").write_text(f"%Assuan%\nsocket={path}\n")

    def redirect_to_folder(self, user):
        if os.geteuid():
            return ""
        other = self.folder(user.place / "other", owner=NOBODY)
        self.redirect(user, other / "socket")
        with self.listening(other / "socket", NOBODY) as listener:
            return self.refused(user, f"passphrase: the folder {other} belongs to user {NOBODY}, and not to user 0: {CLOSE}\n") or self.heard(listener)

    def redirect_to_socket(self, user):
        if os.geteuid():
            return ""
        path = self.folder(user.place / "other") / "socket"
        self.redirect(user, path)
        with self.listening(path, NOBODY) as listener:
            return self.refused(user, f"passphrase: the socket {path} belongs to user {NOBODY}, and not to user 0: remove it\n") or self.heard(listener)

    def redirect_to_open(self, user):
        other = self.folder(user.place / "other", 0o1777)
        self.redirect(user, other / "socket")
        with self.listening(other / "socket") as listener:
            return self.refused(user, self.open_note(other, "1777")) or self.heard(listener)

    def anothers_program(self, user):
        """The folder isn't set up for ours, whatever the program's name."""
        program = self.folder(user.place / "x" / "dogwoodcatch", 0o755) / "gpg-agent"
        program.write_text(f"#!/bin/sh\ntouch {user.place}/ran\n")
        program.chmod(0o755)
        if not os.geteuid():
            os.chown(program, NOBODY, NOBODY)
        (self.folder(user.home) / "gpg.conf").write_text(f"agent-program {program}\n")
        wrong = user.wrong(user.passphrase("--no-ask", "id"), 1, None, "nothing is kept as id")
        return wrong or ("it was run" if (user.place / "ran").exists() else "" if user.agent(user.own) == "ours" else "no agent of its own")

    def open_program(self, user):
        """Beside the program it isn't run, and where the package has put another one that is."""
        program = user.scripted.installed / "gpg-agent"
        before = program.stat().st_mode & 0o7777
        program.chmod(0o777)
        try:
            done = user.passphrase("--homedir", user.folder(user.place / "named"), "--no-ask", "id")
        finally:
            program.chmod(before)
        if any(os.path.exists(f"{folder}/lib/dogwoodcatch/gpg-agent") for folder in ("/usr", "/usr/local")):
            return user.wrong(done, 1, None, "nothing is kept as id")
        return user.wrong(done, 3, None, f"none is started: others may change the program {program} (mode 0777): chmod go-w {program}\n")
