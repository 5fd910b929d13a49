"""Connections that threads take in turn."""
import unittest
from concurrent.futures import ThreadPoolExecutor

from .peer import SECRET, Peer, echo, nobody, serving
from visorgal import Lost, ObjectId, Pool

MADE = ObjectId(7, 0, 1)


class Pools(unittest.TestCase):
    def test_threads_take_them_in_turn_each_with_a_client_of_its_own(self):
        hellos = []

        def play(talk, number):
            hellos.append(talk.greet()[6:10])
            while (body := talk.frame()) is not None:
                talk.say(echo(body, number))

        def read(offset):
            with pool.drive() as drive:
                return drive.read(MADE, offset).data

        with Peer(play) as peer, Pool(peer.address, 7, 10, SECRET, size=3) as pool, ThreadPoolExecutor(8) as threads:
            self.assertEqual(list(threads.map(read, range(300))), [it.to_bytes(4, "big") for it in range(300)])
        self.assertLessEqual(set(hellos), {bytes([0, 0, 0, client]) for client in (10, 11, 12)})
        self.assertEqual(len(hellos), len(set(hellos)))

    def test_all_are_closed_in_the_end(self):
        with Peer(serving(echo)) as peer, Pool(peer.address, 7, 1, SECRET, size=2) as pool:
            with pool.drive() as one, pool.drive() as other:
                pass
        self.assertFalse(one.is_open or other.is_open)

    def test_one_that_was_lost_is_opened_anew(self):
        with Peer(serving(lambda body, number: None if number == 0 else echo(body, number))) as peer, Pool(peer.address, 7, 1, SECRET, size=1) as pool:
            with self.assertRaises(Lost), pool.drive() as drive:
                drive.read(MADE, 1)
            with pool.drive() as drive:
                self.assertEqual(drive.read(MADE, 2).data, b"\0\0\0\2")

    def test_where_all_are_taken_one_waits(self):
        with Peer(serving(echo)) as peer, Pool(peer.address, 7, 1, SECRET, size=1) as pool, pool.drive():
            with self.assertRaises(TimeoutError), pool.drive(timeout=0.1):
                pass

    def test_one_that_cannot_be_opened_leaves_its_place(self):
        with Pool(nobody(), 7, 1, SECRET, size=1) as pool:
            for _ in range(2):
                with self.assertRaises(OSError), pool.drive(timeout=1):
                    pass

    def test_there_is_one_at_least(self):
        with self.assertRaises(ValueError):
            Pool("127.0.0.1:1", 7, 1, SECRET, size=0)
