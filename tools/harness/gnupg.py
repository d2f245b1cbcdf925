"""What the scripts with GnuPG have between its programs and an agent: a socket at which each client is given an agent of its own, as `gpg-agent` has one for all, and a socket
that is forwarded to another one."""
import pathlib
import socket
import subprocess
import threading


def agent_socket(home):
    """Where GnuPG's clients look for the agent of this home folder."""
    listed = subprocess.run(["gpgconf", "--homedir", home, "--list-dirs", "agent-socket"], check=True, stdout=subprocess.PIPE, text=True)
    path = pathlib.Path(listed.stdout.strip())
    path.parent.mkdir(parents=True, exist_ok=True)
    return str(path)


class Bridge:
    """Serves each client of the socket by this command, which runs in the folder."""

    def __init__(self, path, command, folder=None):
        self.command, self.folder = command, folder
        self.listener = socket.socket(socket.AF_UNIX)
        self.listener.bind(path)
        self.listener.listen()
        threading.Thread(target=self.serve, daemon=True).start()

    def serve(self):
        while True:
            client, _ = self.listener.accept()
            with client:
                subprocess.Popen(self.command, stdin=client.fileno(), stdout=client.fileno(), cwd=self.folder)


class Relay:
    """Each client of the path is one of the target, as where ssh forwards a socket, and what they say is kept."""

    def __init__(self, path, target):
        self.target, self.talks = target, []
        self.listener = socket.socket(socket.AF_UNIX)
        self.listener.bind(path)
        self.listener.listen()
        threading.Thread(target=self.serve, daemon=True).start()

    def serve(self):
        while True:
            client, _ = self.listener.accept()
            agent, talk = socket.socket(socket.AF_UNIX), []
            try:
                agent.connect(self.target)
            except OSError:
                client.close()
                continue
            self.talks.append(talk)
            for source, sink, is_client in ((client, agent, True), (agent, client, False)):
                threading.Thread(target=self.pump, args=(source, sink, is_client, talk), daemon=True).start()

    @staticmethod
    def pump(source, sink, is_client, talk):
        try:
            while piece := source.recv(65536):
                talk.append((is_client, piece))
                sink.sendall(piece)
            sink.shutdown(socket.SHUT_WR)
        except OSError:
            # The other one is gone.
            pass

    def taken(self):
        """The requests so far, each with the last line of its answer. They are told once."""
        talks, self.talks = self.talks, []
        for talk in talks:
            request, inquires, left = None, False, {True: b"", False: b""}
            for is_client, piece in talk:
                *lines, left[is_client] = (left[is_client] + piece).split(b"\n")
                for line in lines:
                    if is_client and not inquires:
                        request = line.decode()
                    elif is_client:
                        inquires = line not in (b"END", b"CAN")
                    elif line.startswith((b"OK", b"ERR")) and request is not None:
                        yield request, line.decode()
                        request = None
                    else:
                        inquires = line.startswith(b"INQUIRE")
