"""The other side of connections, played."""
import contextlib
import socket
import threading

WELCOME = {1: bytes.fromhex("00000002 10 01"), 2: bytes.fromhex("00000002 10 02")}
DONE = bytes.fromhex("00000001 00")
DENIED_READ = bytes.fromhex("00000003 08 01 01")
MALFORMED, BAD_LOGIN = bytes.fromhex("00000002 11 01"), bytes.fromhex("00000002 11 02")
SECRET = bytes(range(16))


def data(payload):
    """The frame of a Data that the administrator is given, by version 2."""
    body = b"\2\0" + len(payload).to_bytes(4, "big") + payload
    return len(body).to_bytes(4, "big") + body


class Talk:
    """A connection that was accepted: what comes is taken frame by frame."""

    def __init__(self, there):
        self.there, self.stream = there, there.makefile("rb")

    def frame(self):
        """The body of the next frame, or none where no more comes."""
        front = self.stream.read(4)
        return self.stream.read(int.from_bytes(front, "big")) if len(front) == 4 else None

    def greet(self):
        """Takes a Hello, and welcomes it."""
        hello = self.frame()
        if hello is None:
            raise ConnectionError("no Hello came")
        self.say(WELCOME[hello[1]])
        return hello

    def say(self, *frames):
        self.there.sendall(b"".join(frames))


class Peer:
    """Plays the drive: to the connection of each number, from 0 on, by `play(talk, number)`, each in a thread of its own. It tells how many came, and that one was
    ended from here."""

    def __init__(self, play):
        self.play, self.count, self.ended = play, 0, threading.Event()
        self.listener = socket.create_server(("127.0.0.1", 0))
        self.address = f"127.0.0.1:{self.listener.getsockname()[1]}"
        threading.Thread(target=self.accept, daemon=True).start()

    def accept(self):
        with contextlib.suppress(OSError):
            while True:
                there, _ = self.listener.accept()
                number, self.count = self.count, self.count + 1
                threading.Thread(target=self.serve, args=(there, number), daemon=True).start()

    def serve(self, there, number):
        talk = Talk(there)
        with there, talk.stream, contextlib.suppress(OSError):
            self.play(talk, number)
        self.ended.set()

    def __enter__(self):
        return self

    def __exit__(self, *_):
        self.listener.close()


def nobody():
    """An address at which nobody listens."""
    with socket.create_server(("127.0.0.1", 0)) as listener:
        return f"127.0.0.1:{listener.getsockname()[1]}"


def serving(answer):
    """A play that welcomes, and says of each body what `answer` gives; none ends the connection."""

    def play(talk, number):
        talk.greet()
        while (body := talk.frame()) is not None:
            said = answer(body, number)
            if said is None:
                return
            talk.say(said)

    return play


def echo(body, _number):
    """Each Read is given the bytes of its offset."""
    return data(body[9:13]) if body[0] == 3 else DONE
