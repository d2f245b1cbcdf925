"""A home folder with what is installed and a pinentry without a user, which answers by a file, for the scripts that try `passphrase`."""
import os
import pathlib
import shutil
import subprocess
import sys
import urllib.parse

# The package that the scripts share.
sys.path.insert(0, str(pathlib.Path(__file__).resolve().parent.parent))
from harness.agents import write_script
from harness.transcript import Transcript, holds_within

SCRIPTS = pathlib.Path(__file__).resolve().parent.parent / "daemon"

# How many seconds a program has.
LIMIT = 300

# One that other users may run too.
PYTHON = shutil.which("python3", path="/usr/bin:/bin") or sys.executable

# What a passphrase may have that is given by a line.
EVERY = bytes(byte for byte in range(1, 256) if byte != 10)

# It answers GETPIN by the next line of the file `answers`, escaped as a data line is: none, or `-`, is a cancel, `timeout` is one,
# and `wait` stays until it is ended, each after the seconds of the file `delay`. It tells each prompt in a file: the terminal that it was named, and what the user reads.
PINENTRY = f"#!{PYTHON}" + """
import os, pathlib, sys, time, urllib.parse
folder, tty, description, prompt = pathlib.Path(__file__).parent, "", "", ""
print("OK", flush=True)
for line in sys.stdin.buffer:
    line = line.rstrip(b"\\n").decode(errors="surrogateescape")
    command, _, rest = line.partition(" ")
    if line.startswith("OPTION ttyname="):
        tty = line.partition("=")[2]
    elif command == "SETDESC":
        description = rest
    elif command == "SETPROMPT":
        prompt = rest
    elif line == "GETINFO pid":
        print(f"D {os.getpid()}", flush=True)
    elif command == "SETREPEAT":
        # The agent asks twice then.
        print("ERR 536871187 Unknown IPC command", flush=True)
        continue
    elif command == "GETPIN":
        with open(folder / "prompts", "a") as told:
            told.write(f"{tty}\\t{prompt}\\t{description}\\n")
        answers = (folder / "answers").read_text().splitlines()
        (folder / "answers").write_text("".join(answer + "\\n" for answer in answers[1:]))
        if (folder / "delay").exists():
            time.sleep(float((folder / "delay").read_text()))
        if not answers or answers[0] == "-":
            print("ERR 83886179 Operation cancelled", flush=True)
            continue
        if answers[0] == "timeout":
            print("ERR 83886142 Timeout", flush=True)
            continue
        if answers[0] == "wait":
            time.sleep(600)
        print(f"D {answers[0]}", flush=True)
    print("OK", flush=True)
    if command == "BYE":
        break
"""


def write_pinentry(folder):
    """It has a pinentry's name, without which `passphrase` doesn't end it: its interpreter is named directly, since env(1) would have that one's name shown."""
    return write_script(folder / "pinentry-scripted", PINENTRY)


def escaped(passphrase):
    """Bytes as a data line may have them."""
    return "".join(f"%{byte:02X}" if byte in b"%" or not 32 <= byte < 127 else chr(byte) for byte in passphrase)


def as_bytes(environment):
    """An environment of texts or bytes."""
    return {(name.encode() if isinstance(name, str) else name): (value.encode() if isinstance(value, str) else value) for name, value in environment.items()}


def install(passphrase, folder):
    """Puts the program into a folder as it is installed, with its mode and by both names."""
    put_program(passphrase, folder / "passphrase_program")
    for name in ("passphrase", "passphrase-askpass"):
        (folder / name).symlink_to("passphrase_program")


def install_agent(program, folder):
    """Puts the agent there by its name, and with its mode. Its path."""
    return put_program(program, folder / "gpg-agent")


def put_program(built, path):
    shutil.copy(built, path)
    path.chmod(0o711)
    return path


# What an agent is asked that is to be told from another one.
WHOSE = ("GETINFO pid", "HELP")


def whose(answers):
    """Whose agent has answered WHOSE: ours, or gnupg, which alone serves smartcards; or none."""
    return None if not answers.startswith("D ") else "gnupg" if "# SCD" in answers else "ours"


class ScriptedHome(Transcript):
    """`passphrase` and the agent side by side, as they are installed, and a home folder that is set up for them."""

    def __init__(self, agent, passphrase, place, conf=()):
        self.place, self.installed, self.home = place, place / "installed", place / "home"
        self.files, self.asked = place / "files", place / "pinentry"
        for folder in (self.installed, self.home, self.files, self.asked):
            folder.mkdir(mode=0o700)
        install(passphrase, self.installed)
        self.pinentry = write_pinentry(self.asked)
        (self.home / "gpg.conf").write_text(f"agent-program {install_agent(agent, self.installed)}\n")
        (self.home / "gpg-agent.conf").write_text("".join(line + "\n" for line in (f"pinentry-program {self.pinentry}", *conf)))
        # What a job of cron has.
        self.environment = {"HOME": str(place), "PATH": f"{self.installed}:/usr/bin:/bin", "GNUPGHOME": str(self.home), "LC_ALL": "C.UTF-8"}
        self.answers()

    def answers(self, *passphrases):
        """What the user types next: texts or bytes; `-` is a cancel, `timeout` the end of a prompt, and `wait` nothing at all."""
        spelled = [escaped(text.encode() if isinstance(text, str) else text) for text in passphrases]
        (self.asked / "answers").write_text("".join(text + "\n" for text in spelled), encoding="utf-8")

    def prompts(self):
        """The prompts since this was called last: the terminal, the prompt and the description of each."""
        path = self.asked / "prompts"
        lines = path.read_bytes().decode(errors="replace").split("\n")[:-1] if path.exists() else []
        path.unlink(missing_ok=True)
        rows = [line.split("\t") for line in lines]
        return [(tty, urllib.parse.unquote(prompt), urllib.parse.unquote(text)) for tty, prompt, text in rows]

    def run(self, *words, data=b"", environment=None, **more):
        """Runs a program that no terminal has. What it did, its texts as bytes."""
        words = [word if isinstance(word, bytes) else str(word) for word in words]
        return subprocess.run(words, cwd=self.files, input=data, capture_output=True, timeout=LIMIT, start_new_session=True,
                              env=as_bytes({**self.environment, **(environment or {})}), check=False, **more)

    def shown(self, *words, hides=(), **more):
        """As `run`, and tells of it, but for what it wrote where that is hidden."""
        print("$ " + " ".join(str(word) for word in words), flush=True)
        done = self.run(*words, **more)
        text = (done.stdout + done.stderr).decode(errors="replace")
        for passphrase in hides:
            text = text.replace(passphrase, "(the passphrase)")
        print("".join(f"    {line}\n" for line in text.splitlines()[:12]) + f"    status {done.returncode}", flush=True)
        return done

    def told(self, *lines):
        """What the agent answers to these lines."""
        return self.run("gpg-connect-agent", "--no-autostart", *lines, "/bye").stdout.decode()

    def end(self, home=None):
        """Ends the daemon of this folder, or of another one, and waits until it is gone."""
        home = home or self.home
        self.run("gpgconf", "--homedir", home, "--kill", "gpg-agent")
        holds_within(lambda: not (home / "S.gpg-agent").exists(), LIMIT)
        self.run("gpgconf", "--homedir", home, "--remove-socketdir")
        return not os.path.exists(home / "S.gpg-agent")
