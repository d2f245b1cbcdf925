"""Which folder's agent `passphrase` asks, for `tools/passphrase-cases`."""
import os
import shutil
import threading
import time

from scripted import EVERY, WHOSE, whose

NO_PRESETS = "the agent takes no presets: allow-preset-passphrase in gpg-agent.conf"
NO_END = "the agent takes no presets with an end, as GnuPG's own doesn't: --ttl wants passphrase --homedir DIR"
KEPT = "id is kept already, and its end wasn't changed: --new --ttl asks anew"
NO_TTL = "the agent takes no presets: --ttl wants allow-preset-passphrase in its gpg-agent.conf, or passphrase --homedir DIR"
NO_TERMINAL = "nothing is kept as id, and its prompt was closed: there is no terminal to ask in"


class User:
    """A new user, who has set up nothing, with a pinentry that answers by a file in whatever folder is asked."""

    def __init__(self, cases, name):
        self.scripted, self.wrong, self.place = cases.scripted, cases.wrong, cases.place / name
        self.home, self.own = self.place / ".gnupg", self.place / ".local" / "share" / "dogwoodcatch"
        self.place.mkdir()
        self.environment = {"HOME": str(self.place), "GNUPGHOME": ""}
        self.folders = [self.home, self.own]

    def run(self, *words, environment=None, **more):
        return self.scripted.run(*words, environment={**self.environment, **(environment or {})}, **more)

    def passphrase(self, *words, **more):
        return self.run("passphrase", *words, **more)

    def folder(self, path, *lines):
        """A folder whose agent asks by the pinentry, with these lines of gpg-agent.conf besides."""
        path.mkdir(mode=0o700, parents=True, exist_ok=True)
        with open(path / "gpg-agent.conf", "a") as conf:
            conf.write("".join(line + "\n" for line in (f"pinentry-program {self.scripted.pinentry}", *lines)))
        self.folders.append(path)
        return path

    def told(self, path, *lines):
        return self.run("gpg-connect-agent", "--homedir", path, "--no-autostart", "-q", *lines, "/bye").stdout.decode()

    def agent(self, path):
        """Whose agent answers for a folder: ours, gnupg or none."""
        return whose(self.told(path, *WHOSE))

    def keeps(self, path, name):
        """What an agent keeps under an id: none, or hexadecimal digits."""
        answer = self.told(path, f"GET_PASSPHRASE --no-ask {name} X X X").strip()
        return answer[3:] if answer.startswith("OK") else None

    def gnupg(self, *lines):
        """Has GnuPG's own agent answer for ~/.gnupg."""
        self.folder(self.home, *lines)
        self.run("gpgconf", "--launch", "gpg-agent")

    def end(self):
        for path in self.folders:
            self.scripted.end(path)


class Folders:
    """Which folder's agent is asked, and that none takes the place of an agent which another program wants."""

    def __init__(self, cases):
        self.cases, self.count = cases, 0

    def groups(self):
        for name, holds in [
            ("nothing is set up: an agent of its own is started", self.own), ("nothing is set up: it is said once", self.once), ("nothing is set up: keys are used by gpg-agent as before", self.keys),
            ("XDG_DATA_HOME", self.data_home), ("the own folder is a link", self.link), ("GnuPG's own agent: its words", self.gnupg_words),
            ("GnuPG's own agent stores where it is allowed to", self.gnupg_stores), ("GnuPG's own agent: --ttl", self.gnupg_ttl),
            ("two agents: a look-up", self.look_up), ("two agents: --forget", self.forget), ("two agents: --forget-all", self.forget_all), ("GnuPG's own agent: --forget-all", self.gnupg_forgets_all),
            ("two agents: --new", self.new), ("two agents: --store", self.store), ("two agents: the own one hangs", self.own_hangs), ("a folder with the mark", self.marked),
            ("agent-program of another program", self.other_program), ("agent-program in quotes, by a link", self.quoted), ("agent-program twice: the last one counts", self.last_counts),
            ("--homedir", self.named), ("--homedir of a folder with keys", self.named_keys), ("--homedir of a folder with keys that was set up", self.named_set_up), ("--store that isn't allowed", self.not_allowed),
            ("--ttl that isn't allowed asks nobody", self.no_ttl), ("--ttl above the agent's own time", self.longer), ("no terminal to ask in", self.no_terminal),
            ("HOME is unset and nothing is set up", self.no_home), ("two at once make the own folder", self.at_once),
        ]:
            self.cases.case(name, lambda: self.tried(holds))

    def tried(self, holds):
        self.count += 1
        user = User(self.cases, f"user{self.count}")
        try:
            return holds(user)
        finally:
            user.end()

    def first(self, user, **more):
        """The first look-up, which has the own folder made."""
        return user.wrong(user.passphrase("--no-ask", "id", **more), 1, None, "nothing is kept as id")

    def with_own(self, user, *lines):
        """An agent of its own that asks, and keeps `own` under the id."""
        user.folder(user.own, "allow-preset-passphrase", *lines)
        return user.wrong(user.passphrase("--store", "id", data=b"own"), 0, None, "")

    def own(self, user):
        wrong = self.first(user)
        mode = user.own.stat().st_mode & 0o777
        return wrong or ("" if user.agent(user.own) == "ours" and user.agent(user.home) is None and mode == 0o700 and (user.own / "gpg-agent.conf").exists() and (user.own / "agent.log").exists()
                         else f"{user.agent(user.own)}, {user.agent(user.home)}, mode {mode:o}")

    def once(self, user):
        told = [user.passphrase("--no-ask", "id").stderr.decode() for _ in range(2)]
        user.end()
        told.append(user.passphrase("--no-ask", "id").stderr.decode())
        return "" if [str(user.own) in text for text in told] == [True, False, False] else repr(told)

    def keys(self, user):
        user.home.mkdir(mode=0o700)
        user.run("gpg", "--batch", "--passphrase", "", "--quick-generate-key", "user", "default", "default", "never")
        sign = ("gpg", "--batch", "--yes", "-o", user.place / "signed", "-s", user.scripted.home / "gpg.conf")
        if user.run(*sign).returncode:
            return "no signature is made beforehand"
        user.scripted.end(user.home)
        wrong = self.first(user)
        return wrong or ("" if user.run(*sign).returncode == 0 and user.agent(user.home) == "gnupg" and user.agent(user.own) == "ours" else "gpg -s fails")

    def data_home(self, user):
        other = user.place / "data"
        wrong = self.first(user, environment={"XDG_DATA_HOME": str(other)})
        user.folders.append(other / "dogwoodcatch")
        wrong = wrong or ("" if user.agent(other / "dogwoodcatch") == "ours" and not user.own.exists() else "it isn't used")
        # One that isn't absolute doesn't count.
        wrong = wrong or self.first(user, environment={"XDG_DATA_HOME": "data"})
        return wrong or ("" if user.agent(user.own) == "ours" else "a relative one is used")

    def link(self, user):
        other = user.place / "elsewhere"
        other.mkdir(mode=0o700)
        user.own.parent.mkdir(parents=True)
        user.own.symlink_to(other)
        return self.first(user) or ("" if user.agent(user.own) == "ours" else "no agent")

    def gnupg_words(self, user):
        user.gnupg()
        rows = [(["--no-ask", "id"], [], 1, None, "nothing is kept as id"), (["id"], ["typed"], 0, "typed", ""), (["--no-ask", "id"], [], 0, "typed", ""),
                (["--new", "id"], ["new", "new"], 0, "new", ""), (["id"], [], 0, "new", ""), (["--forget", "id"], [], 0, None, ""), (["id"], ["-"], 1, None, "the prompt for id was cancelled"),
                (["id"], [""], 1, None, "the passphrase of id is empty, and is forgotten"), (["id"], ["100% + ü"], 0, "100% + ü", ""), (["every"], [EVERY], 0, EVERY, ""), (["--no-ask", "every"], [], 0, EVERY, ""),
                (["long"], ["l" * 200], 0, "l" * 200, "")]
        for words, typed, status, out, says in rows:
            user.scripted.answers(*typed)
            if wrong := user.wrong(user.passphrase(*words), status, out, says):
                return f"{words}: {wrong}"
        wrong = user.wrong(user.passphrase("--store", "id", data=b"stored"), 1, None, NO_PRESETS)
        return wrong or ("" if user.agent(user.home) == "gnupg" and not user.own.exists() else "ours was started")

    def gnupg_stores(self, user):
        user.gnupg("allow-preset-passphrase")
        for words, data, out in [(["--store", "id"], EVERY, None), (["--no-ask", "id"], b"", EVERY), (["--forget", "id"], b"", None)]:
            if wrong := user.wrong(user.passphrase(*words, data=data), 0, out, ""):
                return f"{words}: {wrong}"
        return user.wrong(user.passphrase("--no-ask", "id"), 1, None, "nothing is kept as id")

    def gnupg_ttl(self, user):
        """It takes no preset with an end, of which is heard before the user is asked."""
        for lines, says in [((), NO_TTL), (("allow-preset-passphrase",), NO_END)]:
            user.gnupg(*lines)
            user.scripted.prompts()
            user.scripted.answers("typed")
            wrong = user.wrong(user.passphrase("--ttl", "60", "id"), 1, None, says) or ("it asked" if user.scripted.prompts() else "")
            if wrong:
                return wrong
            user.scripted.end(user.home)
        user.gnupg()
        return user.wrong(user.passphrase("id"), 0, "typed", "") or user.wrong(user.passphrase("--ttl", "60", "id"), 0, "typed", KEPT)

    def look_up(self, user):
        wrong = self.with_own(user)
        user.gnupg()
        # What was typed before the other agent was there is given; what isn't kept is asked for by the GnuPG home's agent, and kept there.
        wrong = wrong or user.wrong(user.passphrase("--no-ask", "id"), 0, "own", "") or user.wrong(user.passphrase("id"), 0, "own", "")
        user.scripted.answers("typed")
        wrong = wrong or user.wrong(user.passphrase("more"), 0, "typed", "") or user.wrong(user.passphrase("--no-ask", "more"), 0, "typed", "")
        wrong = wrong or user.wrong(user.passphrase("--no-ask", "neither"), 1, None, "nothing is kept as neither")
        for name, status in [("id", 0), ("more", 0), ("neither", 1)]:
            wrong = wrong or user.wrong(user.passphrase("--cached", name), status, None, "")
        return wrong or ("" if (user.keeps(user.home, "more"), user.keeps(user.own, "more")) == (b"typed".hex().upper(), None) else "kept elsewhere")

    def forget(self, user):
        wrong = self.with_own(user)
        user.gnupg("allow-preset-passphrase")
        user.told(user.home, "PRESET_PASSPHRASE id -1 61")
        wrong = wrong or user.wrong(user.passphrase("--forget", "id"), 0, None, "")
        return wrong or user.wrong(user.passphrase("--no-ask", "id"), 1, None, "nothing is kept as id")

    def forget_all(self, user):
        """Both forget what they keep, under whatever id."""
        wrong = self.with_own(user) or user.wrong(user.passphrase("--store", "other", data=b"own"), 0, None, "")
        user.gnupg("allow-preset-passphrase")
        user.told(user.home, "PRESET_PASSPHRASE id -1 61")
        user.told(user.home, "PRESET_PASSPHRASE more -1 61")
        wrong = wrong or user.wrong(user.passphrase("--forget-all"), 0, None, "")
        kept = [(folder, name) for folder in (user.home, user.own) for name in ("id", "other", "more") if user.keeps(folder, name) is not None]
        return wrong or (f"kept: {kept}" if kept else "")

    def gnupg_forgets_all(self, user):
        user.gnupg("allow-preset-passphrase")
        user.told(user.home, "PRESET_PASSPHRASE id -1 61")
        wrong = user.wrong(user.passphrase("--forget-all"), 0, None, "")
        return wrong or ("" if user.keeps(user.home, "id") is None else "it keeps the passphrase")

    def new(self, user):
        wrong = self.with_own(user)
        user.gnupg()
        user.scripted.answers("new", "new")
        wrong = wrong or user.wrong(user.passphrase("--new", "id"), 0, "new", "") or user.wrong(user.passphrase("id"), 0, "new", "")
        return wrong or ("" if user.keeps(user.own, "id") is None else "the own agent keeps the earlier one")

    def store(self, user):
        wrong = self.with_own(user)
        user.gnupg("allow-preset-passphrase")
        wrong = wrong or user.wrong(user.passphrase("--store", "id", data=b"stored"), 0, None, "") or user.wrong(user.passphrase("id"), 0, "stored", "")
        return wrong or ("" if user.keeps(user.own, "id") is None else "the own agent keeps the earlier one")

    def own_hangs(self, user):
        wrong = self.with_own(user)
        number = int(user.told(user.own, "GETINFO pid").partition("\n")[0][2:])
        user.gnupg()
        user.scripted.answers("typed")
        os.kill(number, 19)
        try:
            wrong = wrong or user.wrong(user.passphrase("id"), 0, "typed", "") or user.wrong(user.passphrase("--forget", "id"), 3, None, f"the agent of {user.own} doesn't answer")
        finally:
            os.kill(number, 18)
        return wrong

    def marked(self, user):
        other = user.place / "secrets"
        user.folder(other, "# dogwoodcatch: this folder is for its agent")
        wrong = self.first(user, environment={"GNUPGHOME": str(other)})
        return wrong or ("" if user.agent(other) == "ours" and not user.own.exists() else "it isn't started there")

    def other_program(self, user):
        """A script of the user's own isn't ours."""
        other = user.place / "gpg-agent"
        other.write_text("#!/bin/sh\nexec /usr/bin/gpg-agent \"$@\"\n")
        other.chmod(0o755)
        user.home.mkdir(mode=0o700)
        (user.home / "gpg.conf").write_text(f"agent-program {other}\n")
        return self.first(user) or ("" if user.agent(user.own) == "ours" and user.agent(user.home) is None else "it is started there")

    def quoted(self, user):
        """By a link too it is the agent beside `passphrase` that is named."""
        other = user.place / "linked"
        other.symlink_to(user.scripted.installed)
        user.home.mkdir(mode=0o700)
        (user.home / "gpg.conf").write_text(f'\t--agent-program = "{other}/gpg-agent" \r\n')
        return self.first(user) or ("" if user.agent(user.home) == "ours" and not user.own.exists() else "it isn't started there")

    def last_counts(self, user):
        user.home.mkdir(mode=0o700)
        (user.home / "gpg.conf").write_text(f"agent-program {user.scripted.installed}/gpg-agent\n# agent-program /none\nagent-program /usr/bin/gpg-agent\n")
        return self.first(user) or ("" if user.agent(user.own) == "ours" and user.agent(user.home) is None else "it is started there")

    def named(self, user):
        other = user.folder(user.place / "named")
        user.scripted.answers("typed")
        wrong = user.wrong(user.passphrase("--homedir", other, "id"), 0, "typed", "") or user.wrong(user.passphrase(f"--homedir={other}", "--no-ask", "id"), 0, "typed", "")
        # From within the folder above it, and as a word that a shell left as it was.
        for name in ("../user/named", "~/named"):
            name = name.replace("user/", f"{user.place.name}/")
            wrong = wrong or user.wrong(user.passphrase(f"--homedir={name}", "--no-ask", "id"), 0, "typed", "")
        wrong = wrong or user.wrong(user.passphrase("--homedir", other, "--forget", "id"), 0, None, "") or user.wrong(user.passphrase("--homedir", other, "--no-ask", "id"), 1, None, "nothing is kept as id")
        # GnuPG's own agent is asked there too.
        user.gnupg()
        user.scripted.answers("another")
        wrong = wrong or user.wrong(user.passphrase("--homedir", user.home, "id"), 0, "another", "")
        return wrong or ("" if user.agent(other) == "ours" and user.agent(user.home) == "gnupg" and not user.own.exists() else "another one was started")

    def secret_key(self, user):
        (user.home / "private-keys-v1.d").mkdir(mode=0o700, parents=True)
        (user.home / "private-keys-v1.d" / f"{'A' * 40}.key").write_text("a key\n")

    def named_keys(self, user):
        self.secret_key(user)
        wrong = user.wrong(user.passphrase("--homedir", user.home, "id"), 3, None, "has secret keys")
        return wrong or ("" if user.agent(user.home) is None else "an agent was started")

    def named_set_up(self, user):
        self.secret_key(user)
        (user.home / "gpg.conf").write_text(f"agent-program {user.scripted.installed}/gpg-agent\n")
        return self.first(user) or ("" if user.agent(user.home) == "ours" else "no agent")

    def not_allowed(self, user):
        return user.wrong(user.passphrase("--homedir", user.place / "named", "--store", "id", data=b"a"), 1, None, NO_PRESETS) or user.folders.append(user.place / "named") or ""

    def no_ttl(self, user):
        user.folder(user.own)
        user.scripted.prompts()
        user.scripted.answers("typed")
        wrong = user.wrong(user.passphrase("--homedir", user.own, "--ttl", "60", "id"), 1, None, NO_TTL)
        return wrong or ("it asked" if user.scripted.prompts() else "")

    def longer(self, user):
        user.folder(user.own, "allow-preset-passphrase", "default-cache-ttl 1")
        user.scripted.answers("typed", "typed")
        wrong = user.wrong(user.passphrase("--homedir", user.own, "--ttl", "60", "id"), 0, "typed", "") or user.wrong(user.passphrase("--homedir", user.own, "other"), 0, "typed", "")
        time.sleep(2.5)
        return wrong or user.wrong(user.passphrase("--homedir", user.own, "--no-ask", "id"), 0, "typed", "") or user.wrong(user.passphrase("--homedir", user.own, "--cached", "other"), 1, None, "")

    def no_terminal(self, user):
        """By a pinentry for terminals: either agent's error has the same words."""
        curses = shutil.which("pinentry-curses")
        if not curses:
            return ""
        for path in (user.own, user.home):
            path.mkdir(mode=0o700, parents=True)
            (path / "gpg-agent.conf").write_text(f"pinentry-program {curses}\n")
        user.run("gpgconf", "--launch", "gpg-agent")
        for path in (user.own, user.home):
            if wrong := user.wrong(user.passphrase("--homedir", path, "id"), 1, None, NO_TERMINAL):
                return f"{user.agent(path)}: {wrong}"
        return ""

    def no_home(self, user):
        other = user.place / "unserved"
        other.mkdir(mode=0o700)
        done = user.run("env", "-u", "HOME", "passphrase", "id", environment={"GNUPGHOME": str(other)})
        return user.wrong(done, 3, None, "name one by --homedir")

    def at_once(self, user):
        """One of them says so, and both are answered by one agent."""
        done = []
        threads = [threading.Thread(target=lambda: done.append(user.passphrase("--no-ask", "id"))) for _ in range(4)]
        for thread in threads:
            thread.start()
        for thread in threads:
            thread.join()
        told = sum(b"made" in each.stderr for each in done)
        return "" if told == 1 and all(each.returncode == 1 and b"nothing is kept as id" in each.stderr for each in done) else f"{told} said so: {[each.stderr for each in done]}"
