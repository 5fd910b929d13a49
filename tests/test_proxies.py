"""Connections that a proxy passes on, each with a first line that says whose it is."""
import json
import socket
import struct
import unittest

from tests.frames import ANSWER, CALL, HELLO, MALFORMED, WELCOME
from tests.peers import exactly, rest_of
from tests.serving import Server, until
from tools.lib.servers import host_and_port

# Where the proxy is, and an address that is none.
PROXY, OTHER = "127.255.255.1", "127.255.255.2"
# The most bytes of a line, with its end.
MOST = 107
# Lines, and the peer that each of them names, as the journal spells it; none where it names nobody.
LINES = (
    (b"PROXY TCP4 203.0.113.7 192.0.2.1 56324 443\r\n", "203.0.113.7:56324"),
    (b"PROXY TCP4 255.255.255.255 255.255.255.255 65535 65535\r\n", "255.255.255.255:65535"),
    (b"PROXY TCP4 0.0.0.0 0.0.0.0 0 0\r\n", "0.0.0.0:0"),
    (b"PROXY TCP6 2001:db8::7 2001:db8::1 56324 443\r\n", "[2001:db8::7]:56324"),
    (b"PROXY TCP6 ffff:ffff:ffff:ffff:ffff:ffff:ffff:ffff ffff:ffff:ffff:ffff:ffff:ffff:ffff:ffff 65535 65535\r\n", "[ffff:ffff:ffff:ffff:ffff:ffff:ffff:ffff]:65535"),
    (b"PROXY UNKNOWN\r\n", None),
    (b"PROXY UNKNOWN ffff:f...f:ffff 65535 65535\r\n", None),
    (b"PROXY UNKNOWN " + b"x" * (MOST - 16) + b"\r\n", None),
)
# What is no line, and what would be one but for a word.
WRONG = (
    HELLO,
    b"GET / HTTP/1.1\r\nHost: s4d\r\n\r\n",
    b"\r\n\r\n\0\r\nQUIT\n\x21\x11\0\x0c" + bytes(12),
    b"\r\n",
    b"PROXY\r\n",
    b"PROXY \r\n",
    b"proxy TCP4 203.0.113.7 192.0.2.1 56324 443\r\n",
    b"PROXY TCP4 203.0.113.7 192.0.2.1 56324 443\n",
    b"PROXY TCP4 203.0.113.7 192.0.2.1 56324 443\r\r\n",
    b"PROXY TCP4 203.0.113.7 192.0.2.1 56324\r\n",
    b"PROXY TCP4 203.0.113.7 192.0.2.1 56324 443 \r\n",
    b"PROXY TCP4 203.0.113.7 192.0.2.1 56324 443 1\r\n",
    b"PROXY TCP4  203.0.113.7 192.0.2.1 56324 443\r\n",
    b"PROXY TCP4 203.0.113.256 192.0.2.1 56324 443\r\n",
    b"PROXY TCP4 203.0.113.07 192.0.2.1 56324 443\r\n",
    b"PROXY TCP4 203.0.113 192.0.2.1 56324 443\r\n",
    b"PROXY TCP4 203.0.113.7 192.0.2 56324 443\r\n",
    b"PROXY TCP4 203.0.113.7 192.0.2.1 65536 443\r\n",
    b"PROXY TCP4 203.0.113.7 192.0.2.1 56324 65536\r\n",
    b"PROXY TCP4 203.0.113.7 192.0.2.1 056324 443\r\n",
    b"PROXY TCP4 203.0.113.7 192.0.2.1 -1 443\r\n",
    b"PROXY TCP4 203.0.113.7 192.0.2.1  443\r\n",
    b"PROXY TCP4 2001:db8::7 2001:db8::1 56324 443\r\n",
    b"PROXY TCP6 203.0.113.7 192.0.2.1 56324 443\r\n",
    b"PROXY TCP6 2001:db8::7 192.0.2.1 56324 443\r\n",
    b"PROXY TCP6 2001:db8::g 2001:db8::1 56324 443\r\n",
    b"PROXY UDP4 203.0.113.7 192.0.2.1 56324 443\r\n",
    b"PROXY UNKNOWN " + b"x" * (MOST - 15) + b"\r\n",
    b"PROXY UNKNOWN " + b"x" * 1000,
    b"PROXY TCP4 203.0.113.7 192.0.2.1 56324 \xff\xff\r\n",
)


class Proxied(Server):
    """A server that has its journal in its folder, and a proxy at PROXY."""

    def __init__(self, *flags, **settings):
        told = {"workers": 2, "connections": 0, "idle": 60000, "hello": 60000} | settings
        super().__init__("--proxy-from", PROXY, *flags, keeps=True, **told)

    def comes(self, source=PROXY):
        """A connection from that address."""
        return socket.create_connection(host_and_port(self.address), 60, (source, 0))

    def events(self):
        """What the journal tells of connections so far: of each the peer and the events."""
        text = (self.folder / "journal" / "1" / "connections.jsonl").read_text(encoding="utf-8")
        told = {}
        for line in map(json.loads, text.splitlines()):
            if line["connection"] is not None:
                told.setdefault(line["connection"], []).append((line["peer"], line["event"]))
        return told

    def kinds(self):
        """The events of connections that are over, in their order, without the peers."""
        return [[event for _, event in events] for _, events in sorted(self.events().items())]


class Proxies(unittest.TestCase):
    """Peers behind a proxy, and others."""

    def check_peer(self, server, line, peer):
        """That the connection that says this line, and then a call, is that peer's."""
        with server.comes() as proxy:
            own = "%s:%d" % proxy.getsockname()
            proxy.sendall(line + CALL)
            self.assertEqual(exactly(proxy, len(WELCOME)), WELCOME)
        until(lambda: any((peer or own, "welcome") in events for events in server.events().values()), "the journal has the peer")
        found = [events for events in server.events().values() if events[0][0] == (peer or own)]
        self.assertEqual([event for _, event in found[-1]][:2], ["opened", "welcome"])
        self.assertEqual({told for told, _ in found[-1]}, {peer or own})

    def test_a_peer_is_the_one_whom_its_line_names(self):
        with Proxied() as server:
            for line, peer in LINES:
                with self.subTest(line):
                    self.check_peer(server, line, peer)
            server.ask_to_end()
            server.check_end(self, (len(LINES), len(LINES)), errors="(s4d: journal: .*\n)*")

    def test_a_line_comes_byte_by_byte(self):
        line, peer = LINES[0]
        with Proxied() as server, server.comes() as proxy:
            proxy.setsockopt(socket.IPPROTO_TCP, socket.TCP_NODELAY, 1)
            for byte in line + CALL:
                proxy.sendall(bytes((byte,)))
            self.assertEqual(exactly(proxy, len(ANSWER)), ANSWER)
            until(lambda: server.events().get(1, [])[:2] == [(peer, "opened"), (peer, "welcome")], "the journal has the peer")

    def test_a_wrong_line_ends_its_connection_without_a_word(self):
        with Proxied() as server:
            for number, bad in enumerate(WRONG, 1):
                with self.subTest(bad), server.comes() as proxy:
                    own = "%s:%d" % proxy.getsockname()
                    proxy.sendall(bad)
                    self.assertEqual(rest_of(proxy), b"")
                    until(lambda: len(server.events().get(number, [])) == 3, "the journal has its end")
                    self.assertEqual(server.events()[number], [(own, "opened"), (own, "malformed"), (own, "closed")])

    def test_a_cut_line_ends_its_connection(self):
        line = LINES[0][0]
        with Proxied() as server:
            for length in (1, 5, 6, 20, len(line) - 2, len(line) - 1):
                with self.subTest(length=length), server.comes() as proxy:
                    proxy.sendall(line[:length])
                    proxy.shutdown(socket.SHUT_WR)
                    self.assertEqual(rest_of(proxy), b"")
            with server.comes() as proxy:
                proxy.shutdown(socket.SHUT_WR)
                self.assertEqual(rest_of(proxy), b"")
            until(lambda: server.kinds() == [["opened", "malformed", "closed"]] * 6 + [["opened", "closed"]], "the journal has their ends")

    def test_a_connection_that_is_reset_before_its_line_is_over(self):
        with Proxied() as server:
            proxy = server.comes()
            proxy.sendall(b"PROXY TCP4")
            proxy.setsockopt(socket.SOL_SOCKET, socket.SO_LINGER, struct.pack("ii", 1, 0))
            proxy.close()
            until(lambda: [it[-1] for it in server.kinds()] in (["reset"], ["closed"]), "the journal has its end")

    def test_a_line_that_does_not_come_is_late(self):
        with Proxied(hello=300) as server:
            for said in (b"", b"PROXY TCP4 203.0.113.7"):
                with self.subTest(said), server.comes() as proxy:
                    proxy.sendall(said)
                    self.assertEqual(rest_of(proxy), b"")
            until(lambda: server.kinds() == [["opened", "late"]] * 2, "the journal has their ends")

    def test_a_line_from_elsewhere_is_a_fault(self):
        with Proxied() as server, server.comes(OTHER) as peer:
            peer.sendall(LINES[0][0])
            self.assertEqual(exactly(peer, 6)[:5], MALFORMED[:5])
            own = "%s:%d" % peer.getsockname()
            until(lambda: len(server.events().get(1, [])) > 1, "the journal has the fault")
            self.assertEqual(server.events()[1][:2], [(own, "opened"), (own, "frame-length")])
            with server.comes(OTHER) as peer:
                peer.sendall(CALL)
                self.assertEqual(exactly(peer, len(ANSWER)), ANSWER)

    def test_places_are_those_of_the_named_address(self):
        with Proxied(open_each=1) as server, server.comes() as one, server.comes() as two, server.comes() as other:
            one.sendall(LINES[0][0] + CALL)
            self.assertEqual(exactly(one, len(ANSWER)), ANSWER)
            two.sendall(LINES[0][0] + CALL)
            self.assertEqual(rest_of(two), b"")
            other.sendall(LINES[1][0] + CALL)
            self.assertEqual(exactly(other, len(WELCOME)), WELCOME)
            addresses = [{"address": "203.0.113.7", "count": 1}, {"address": "255.255.255.255", "count": 1}]
            until(lambda: server.status() and server.status()["connections"]["addresses"] == addresses, "the status has both")
            self.assertEqual(server.status()["connections"]["turned_away"], 1)
            one.close()
            with server.comes() as again:
                until(lambda: server.status()["connections"]["addresses"] == addresses[1:], "the first one is over")
                again.sendall(LINES[0][0] + CALL)
                self.assertEqual(exactly(again, len(WELCOME)), WELCOME)

    def test_a_server_ends_beside_a_connection_without_a_line(self):
        with Proxied() as server, server.comes() as proxy:
            proxy.sendall(b"PROXY TCP4 ")
            until(lambda: server.status() and server.status()["connections"]["greeting"] == 1, "the connection is there")
            server.ask_to_end()
            self.assertEqual(rest_of(proxy), b"")
            server.check_end(self, (0, 0), errors="(s4d: journal: .*\n)*")
            self.assertEqual(server.kinds(), [["opened", "closed"]])
