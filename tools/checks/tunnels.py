"""Tries the recipe of docs/OPERATIONS.md, "Behind a tunnel": peers that come through TLS, whose addresses the journal tells apart.

  ./check tunnels         by HAProxy and by stunnel, each where it is installed
      --program PATH      the program; else bin/s4d or crates/s4d/out/s4d, the one that was built last

Two peers call through each tunnel, from an address each. It is right where both are replied, and where the journal has the address and the port
of each. It wants openssl, and haproxy or stunnel.
"""
import json
import re
import shutil
import socket
import ssl
import subprocess
import tempfile
import time
from pathlib import Path

from tools.lib.commands import Options
from tools.lib.findings import Wrong
from tools.lib.programs import TOP, program_of
from tools.lib.servers import SECRETS, Server, address, host_and_port

OPTIONS = Options(texts=("program",))

# Where peers come from, and from where the tunnel comes to the server. It listens at another address of this machine.
PEERS, TUNNEL = ("127.0.0.5", "127.0.0.6"), "127.0.0.2"
# How long it is waited for what others do, in seconds.
PATIENCE = 30
# What stunnel is told, but for the names of its files and the addresses.
STUNNEL = "foreground = yes\npid =\n[drive]\naccept = {accept}\nconnect = {connect}\nlocal = {local}\nprotocol = proxy\ncert = {pem}\n"


def haproxy(room, pem, accept, connect):
    """HAProxy with the lines of the page, at these addresses."""
    page = (TOP / "docs" / "OPERATIONS.md").read_text(encoding="utf-8")
    lines = re.search(r"```\n(frontend .*?)```", page, re.DOTALL)[1]
    for old, new in ((":4711", accept), ("/etc/haproxy/drive.pem", str(pem)), ("127.0.0.1:4710", connect)):
        if lines.count(old) != 1:
            raise Wrong(f"the page's lines have {old} not just once")
        lines = lines.replace(old, new)
    (room / "haproxy.cfg").write_text(lines, encoding="utf-8")
    return ["haproxy", "-db", "-q", "-f", str(room / "haproxy.cfg")]


def stunnel(room, pem, accept, connect):
    """stunnel with what the page says, at these addresses."""
    (room / "stunnel.conf").write_text(STUNNEL.format(pem=pem, accept=accept, connect=connect, local=TUNNEL), encoding="utf-8")
    return ["stunnel", str(room / "stunnel.conf")]


TUNNELS = {"haproxy": haproxy, "stunnel": stunnel}


def certificate(room):
    """A certificate of nobody, with its key, in one file."""
    words = ["openssl", "req", "-x509", "-newkey", "rsa:2048", "-nodes", "-subj", "/CN=drive", "-days", "2"]
    subprocess.run([*words, "-keyout", room / "key", "-out", room / "cert"], check=True, capture_output=True)
    (room / "pem").write_bytes((room / "key").read_bytes() + (room / "cert").read_bytes())
    (room / "pem").chmod(0o600)
    return room / "pem"


def until(found, what):
    """What is found at last."""
    last = time.monotonic() + PATIENCE
    while time.monotonic() < last:
        try:
            if it := found():
                return it
        except OSError:
            pass
        time.sleep(0.1)
    raise Wrong(f"in vain it was waited for this: {what}")


def through(source, place):
    """A connection through the tunnel at that place, from this address."""
    context = ssl.create_default_context()
    context.check_hostname, context.verify_mode = False, ssl.CERT_NONE
    return context.wrap_socket(socket.create_connection(host_and_port(place), PATIENCE, (source, 0)))


def welcomed(server, peer):
    """Whether the journal has a welcome of the peer with this address and port."""
    lines = (server.folder / "journal" / "1" / "connections.jsonl").read_text(encoding="utf-8").splitlines()
    return any(it["event"] == "welcome" and it["peer"] == peer for it in map(json.loads, lines))


def try_tunnel(name, program):
    """Has two peers call through the tunnel of this name, and looks for them in the journal."""
    with tempfile.TemporaryDirectory() as folder, Server(program, "--proxy-from", TUNNEL, "--journal", "journal", folder=folder) as server:
        room, place = Path(folder), address()
        words = TUNNELS[name](room, certificate(room), place, server.address)
        with subprocess.Popen(words, stdin=subprocess.DEVNULL, stdout=subprocess.DEVNULL, stderr=subprocess.DEVNULL) as tunnel:
            try:
                for source in PEERS:
                    with until(lambda source=source: through(source, place), f"{name} listens") as peer:
                        own = "{}:{}".format(*peer.getsockname())
                        peer.sendall(bytes.fromhex("0000001a 00 01 00000007 00000001") + SECRETS[7] + bytes.fromhex("00000002 01 00"))
                        if peer.recv(6) != bytes.fromhex("00000002 10 01"):
                            raise Wrong(f"{name}: a peer isn't welcomed")
                        until(lambda own=own: welcomed(server, own), f"the journal has {own}, who came through {name}")
            finally:
                tunnel.terminate()
                tunnel.wait()


def run(given):
    program = program_of("tunnels", given)
    names = [name for name in TUNNELS if shutil.which(name)]
    if not names or not shutil.which("openssl"):
        raise Wrong("neither HAProxy nor stunnel is here, or openssl isn't")
    for name in names:
        try_tunnel(name, program)
    print(f"tunnels: {' and '.join(names)}: the journal has both peers of each")
    return True
