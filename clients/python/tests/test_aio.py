"""Drives for asyncio: tasks that share a connection, that are cancelled, and connections that are cut."""
import asyncio
import threading
import time
import unittest

from .peer import BAD_LOGIN, DENIED_READ, DONE, SECRET, Peer, data, echo, serving
from visorgal import BadLogin, Closed, Denied, Lost, ObjectId, Unreadable
from visorgal.aio import Drive
from visorgal.requests import Read, Write

MADE = ObjectId(7, 0, 1)


def opened(peer, **more):
    return Drive.connect(peer.address, 7, 1, SECRET, **{"timeout": 60.0, **more})


class Drives(unittest.IsolatedAsyncioTestCase):
    async def test_each_task_has_the_reply_to_its_own_request(self):
        with Peer(serving(echo)) as peer:
            async with await opened(peer) as drive:
                told = await asyncio.gather(*(drive.read(MADE, offset) for offset in range(300)))
        self.assertEqual([it.data for it in told], [it.to_bytes(4, "big") for it in range(300)])

    async def test_an_end_at_any_byte_is_told_and_closes(self):
        whole = data(b"hello")
        for place in range(len(whole)):

            def play(talk, _, place=place):
                talk.greet()
                talk.frame()
                talk.say(whole[:place])

            with self.subTest(place=place), Peer(play) as peer:
                async with await opened(peer) as drive:
                    with self.assertRaises(Lost):
                        await drive.read(MADE)
                    with self.assertRaises(Closed):
                        await drive.read(MADE)

    async def test_a_task_that_is_cancelled_in_the_middle_closes(self):
        """What is asked behind that has its own reply, on another connection."""
        with Peer(serving(lambda body, number: time.sleep(5 if number == 0 else 0) or echo(body, number))) as peer:
            async with await opened(peer) as drive:
                task = asyncio.create_task(drive.read(MADE, 1))
                await asyncio.sleep(0.2)
                task.cancel()
                with self.assertRaises(asyncio.CancelledError):
                    await task
                with self.assertRaisesRegex(Closed, "CancelledError was raised in the middle"):
                    await drive.read(MADE, 2)
                await drive.reconnect()
                self.assertEqual((await drive.read(MADE, 3)).data, b"\0\0\0\3")

    async def test_a_task_may_be_cancelled_at_any_step(self):
        """Behind that the connection is closed, or the next request has its own reply."""
        cancelled = 0
        with Peer(serving(echo)) as peer:
            async with await opened(peer) as drive:
                for steps in range(40):
                    task = asyncio.create_task(drive.ask_all([Read(MADE, offset, 4) for offset in range(3)]))
                    for _ in range(steps):
                        await asyncio.sleep(0)
                    task.cancel()
                    cancelled += isinstance((await asyncio.gather(task, return_exceptions=True))[0], asyncio.CancelledError)
                    await drive.reconnect()
                    self.assertEqual((await drive.read(MADE, 77)).data, b"\0\0\0\x4d")
        self.assertGreater(cancelled, 1)

    async def test_a_task_that_is_cancelled_while_it_waits_for_another_closes_nothing(self):
        cancelled = threading.Event()
        with Peer(serving(lambda body, number: cancelled.wait(60) and echo(body, number))) as peer:
            async with await opened(peer) as drive:
                first, second = (asyncio.create_task(drive.read(MADE, offset)) for offset in (1, 2))
                await asyncio.sleep(0.1)
                second.cancel()
                cancelled.set()
                self.assertEqual((await first).data, b"\0\0\0\1")
                self.assertTrue(drive.is_open)

    async def test_a_reply_that_does_not_come_in_time_is_lost(self):
        with Peer(serving(lambda *_: b"\0")) as peer:
            async with await opened(peer) as drive:
                drive.timeout = 0.2
                with self.assertRaises(Lost):
                    await drive.read(MADE)
                self.assertFalse(drive.is_open)

    async def test_what_is_no_reply_closes_and_a_refusal_does_not(self):
        with Peer(serving(lambda body, _: DENIED_READ if body[0] == 3 else data(b""))) as peer:
            async with await opened(peer) as drive:
                with self.assertRaises(Denied):
                    await drive.read(MADE)
                with self.assertRaises(Unreadable):
                    await drive.append(MADE, b"x")
                self.assertFalse(drive.is_open)

    async def test_one_that_was_closed_while_it_was_idle_is_opened_anew(self):
        def play(talk, number):
            talk.greet()
            while (body := talk.frame()) is not None:
                talk.say(echo(body, number))
                if number == 0:
                    return

        with Peer(play) as peer:
            async with await opened(peer) as drive:
                await drive.read(MADE, 1)
                await asyncio.to_thread(peer.ended.wait, 60)
                await asyncio.sleep(0.1)
                self.assertEqual((await drive.read(MADE, 2)).data, b"\0\0\0\2")
                self.assertEqual(peer.count, 2)

    async def test_both_sides_may_have_much_to_say(self):
        with Peer(serving(lambda body, _: data(bytes(65536)) if body[0] == 3 else DONE)) as peer:
            async with await opened(peer) as drive:
                told = await drive.ask_all([Write(MADE, 0, bytes(65536)), Read(MADE, 0, 65536)] * 100)
        self.assertEqual(len(told), 200)

    async def test_a_login_that_is_bad_is_told(self):
        with Peer(lambda talk, _: talk.frame() and talk.say(BAD_LOGIN)) as peer, self.assertRaises(BadLogin):
            await opened(peer)
