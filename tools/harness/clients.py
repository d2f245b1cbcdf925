"""Clients of an agent: lines out, and answers in, within a limit."""
import re
import select
import socket
import time
import urllib.parse

GREETING = b"OK Pleased to meet you\n"
LAST_LINE = re.compile(rb"^(OK|ERR|INQUIRE)\b.*\n\Z", re.MULTILINE)

# How many seconds an answer has.
SECONDS = 15

# For how many seconds nothing comes where nothing is to come.
QUIET = 0.4

# How many bytes of a value stand in a data line, whichever they are.
DATA_BYTES = 300


class Wrong(Exception):
    """What a program did that it isn't to do."""


def expect(what, found, *wanted):
    if found not in wanted:
        raise Wrong(f"{what}: {found!r}, want {' or '.join(map(repr, wanted))}")


def wait_for(what, holds, seconds=SECONDS):
    end = time.monotonic() + seconds
    while not holds():
        if time.monotonic() > end:
            raise Wrong(f"{what}: not within {seconds} seconds")
        time.sleep(0.005)


def linked(path, seconds=0, serves=lambda: True):
    """A link to the socket of this path; within this time there may be none yet, as long as its program serves."""
    end = time.monotonic() + seconds
    while True:
        link = socket.socket(socket.AF_UNIX)
        try:
            link.connect(str(path))
            return link
        except (FileNotFoundError, ConnectionRefusedError):
            link.close()
            if time.monotonic() >= end or not serves():
                raise
            time.sleep(0.002)


def all_from(link):
    """All that comes up to the end, which may be a sudden one."""
    pieces = []
    try:
        while piece := link.recv(65536):
            pieces.append(piece)
    except ConnectionResetError:
        pass
    return b"".join(pieces)


def whole_talk(path, lines, seconds=SECONDS):
    """All that one session is answered whose lines are sent at once. It may end before it has read all of them."""
    with linked(path) as link:
        link.settimeout(seconds)
        try:
            link.sendall(b"".join(line + b"\n" for line in lines))
            link.shutdown(socket.SHUT_WR)
        except (BrokenPipeError, ConnectionResetError):
            pass
        return all_from(link)


class Session:
    """A client's end of a session. Its answers are bytes as they come, up to the line that ends them."""

    def __init__(self, link, seconds=SECONDS):
        self.link, self.seconds, self.text = link, seconds, b""

    def more(self, seconds=None):
        """Whether anything came but the end."""
        if not select.select([self.link], [], [], self.seconds if seconds is None else seconds)[0]:
            raise Wrong(f"nothing comes behind {self.text!r}")
        try:
            piece = self.link.recv(65536)
        except ConnectionResetError:
            piece = b""
        self.text += piece
        return piece != b""

    def send(self, line):
        self.link.sendall(line.encode() + b"\n")

    def answer(self):
        while not LAST_LINE.search(self.text):
            if not self.more():
                raise Wrong(f"the session ends behind {self.text!r}")
        answer, self.text = self.text, b""
        return answer

    def ask(self, line):
        self.send(line)
        return self.answer()

    def expect(self, line, *wanted):
        expect(line, self.ask(line), *wanted)

    def greeted(self):
        expect("greeting", self.answer(), GREETING)
        return self

    def is_quiet(self, what, seconds=QUIET):
        if select.select([self.link], [], [], seconds)[0]:
            self.more()
            raise Wrong(f"{what}: {self.text!r}")

    def rest(self):
        """All that comes up to the end."""
        while self.more():
            pass
        return self.text

    def close(self):
        self.link.close()


class Client(Session):
    """A client of the socket of this path, be it this agent's or GnuPG's. Its answers are taken apart."""

    def __init__(self, path, seconds=300):
        super().__init__(linked(path), seconds)
        super().answer()

    def answer(self, data=b""):
        """The bytes of the data lines, the status lines, and the last line. An inquiry is answered by this data."""
        got, told = b"", []
        while True:
            *lines, last = super().answer().split(b"\n")[:-1]
            got += b"".join(urllib.parse.unquote_to_bytes(line[2:]) for line in lines if line.startswith(b"D "))
            told += [line.decode(errors="replace") for line in lines if line.startswith(b"S ")]
            if not last.startswith(b"INQUIRE "):
                return got, told, last.decode(errors="replace")
            self.link.sendall(b"".join(b"D " + urllib.parse.quote_from_bytes(data[at:at + DATA_BYTES]).encode() + b"\n" for at in range(0, len(data), DATA_BYTES)) + b"END\n")

    def ask(self, line, data=b""):
        self.send(line)
        return self.answer(data)
