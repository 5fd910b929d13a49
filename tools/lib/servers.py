"""Served drives, each with a folder and an address of its own, and their clients."""
import itertools
import json
import os
import random
import socket
import subprocess
import tempfile
import threading
from pathlib import Path

from tools.lib import client as it
from tools.lib.findings import Wrong

# Each address is another one of this machine, and so are those of other processes. The system gives this port to nobody who asks for any.
NUMBERS = itertools.count(random.randrange(1 << 8, 1 << 22))
PORT = 27104
# How long a client waits for what it is sent, and a server that was asked to end may take, in seconds.
PATIENCE = 60
# The administrator and two principals, with secrets that are in the examples of docs/PROTOCOL.md.
SECRETS = {0: bytes.fromhex("0f0e0d0c0b0a09080706050403020100"), 7: bytes.fromhex("000102030405060708090a0b0c0d0e0f"), 9: bytes(range(16, 32))}


def address():
    """An address at which nobody listens yet."""
    number = next(NUMBERS)
    return f"127.{number >> 16 & 255}.{number >> 8 & 255}.{number & 255}:{PORT}"


def host_and_port(address):
    """The two parts of an address."""
    host, port = address.rsplit(":", 1)
    return host, int(port)


def secret_of(who):
    """A principal's secret, where it matters only that each has another."""
    return who.to_bytes(16, "big")


def logins_of(secrets):
    """A table of logins."""
    return "".join(f"{who} {secret.hex()}\n" for who, secret in secrets.items())


def connect(address, patience=PATIENCE):
    """A connection to an address, on which nothing is said yet."""
    return socket.create_connection(host_and_port(address), patience)


def everything(peer):
    """All that a peer is sent up to the end of its connection."""
    got = bytearray()
    while more := peer.recv(1 << 16):
        got += more
    return bytes(got)


def tell(address, *frames):
    """What a peer is sent that says these frames and then no more. A ConnectionError where its connection was ended before it had said all."""
    with connect(address) as peer:
        try:
            peer.sendall(b"".join(frames))
            peer.shutdown(socket.SHUT_WR)
        except OSError as why:
            raise ConnectionError("the connection was ended before all was said") from why
        return everything(peer)


class Server:
    """A server. In its folder are its logins, its setup where it has one, its status where it `tells`, the file that ends it, and what it writes to standard
    error; the words of its command line may name others there. It lasts so many seconds at most, where that is bounded, and is killed where its
    `with` ends before it. `how` is what the system is told of its process."""

    def __init__(self, program, *flags, logins=logins_of(SECRETS), setup=None, tells=True, folder=None, seconds=None, **how):
        self.room = None if folder else tempfile.TemporaryDirectory(prefix="s4d-")
        self.folder, self.address, self.tells = Path(folder or self.room.name), address(), tells
        (self.folder / "logins").write_text(logins, encoding="utf-8")
        (self.folder / "logins").chmod(0o600)
        words = ["serve", self.address, "logins", "--until", "end", *["--status", "status"] * tells, *flags]
        if setup is not None:
            (self.folder / "setup").write_text(setup, encoding="utf-8")
            words += ["--setup", "setup"]
        with open(self.folder / "errors", "wb") as errors:
            pipes = {"stdin": subprocess.DEVNULL, "stdout": subprocess.PIPE, "stderr": errors}
            self.process = subprocess.Popen([str(program), *map(str, words)], cwd=self.folder, text=True, **pipes, **how)
        self.last = threading.Timer(seconds, self.process.kill) if seconds else None
        if self.last:
            self.last.start()
        self.first = self.process.stdout.readline()

    def __enter__(self):
        if not self.listens():
            errors = self.errors().strip()
            self.kill()
            raise Wrong(f"the server doesn't listen: {errors}")
        return self

    def __exit__(self, *_):
        self.kill()

    def listens(self):
        """Whether it said so when it was started."""
        return self.first == f"listening {self.address}\n"

    def kill(self):
        """Ends it by force, where it goes on, and removes a folder that was made for it."""
        self.process.kill()
        self.process.wait()
        self.process.stdout.close()
        if self.last:
            self.last.cancel()
        if self.room:
            self.room.cleanup()

    def connect(self):
        """A connection on which nothing is said yet."""
        return connect(self.address)

    def log_in(self, who, number, version, secret=None):
        """A connection on which a principal was welcomed as the client of this number."""
        return it.Connection(self.address, who, number, secret or SECRETS[who], version, PATIENCE)

    def tell(self, *frames):
        """What a peer is sent that says these frames and then no more."""
        return tell(self.address, *frames)

    def write(self, name, text):
        """Has a file in its folder hold this text: it is written beside, and takes that file's place."""
        (self.folder / f"{name}.beside").write_text(text, encoding="utf-8")
        (self.folder / f"{name}.beside").chmod(0o600)
        os.replace(self.folder / f"{name}.beside", self.folder / name)

    def status(self):
        """What it tells of itself, or none where it hasn't yet."""
        path = self.folder / "status"
        return json.loads(path.read_text(encoding="utf-8")) if path.exists() else None

    def errors(self):
        """What it has written to standard error."""
        return (self.folder / "errors").read_text(encoding="utf-8")

    def ask_to_end(self):
        """Has it end by the file of --until."""
        (self.folder / "end").touch()

    def end(self):
        """Has it end. Gives the lines that it writes until then, but for its first, and those on standard error."""
        self.ask_to_end()
        self.process.wait(timeout=PATIENCE)
        return self.process.stdout.read().splitlines(), self.errors().splitlines()
