"""The client for Python (clients/python): what it spells and reads, and all of its requests to a server."""
import asyncio
import random
import threading
import time
import unittest
from concurrent.futures import ThreadPoolExecutor

from tests.serving import Server, until
from tools.lib import servers
from tools.lib.client import COMES, frame_of

# (the module before has it found)
import visorgal as it
from visorgal import aio, replies, requests, wire
from visorgal.watch import Reading, page

SECRETS = {who: servers.secret_of(who) for who in (0, 7, 9)}
LOGINS = servers.logins_of(SECRETS)
# How many values of each kind are made at random.
COUNT = 40


class Made:
    """Values of parts, made at random."""

    def __init__(self, seed):
        self.chance = random.Random(seed)

    def of(self, part):
        chance = self.chance
        if isinstance(part, wire.Number):
            return chance.choice((part.least, part.most, chance.randint(part.least, part.most)))
        if isinstance(part, wire.As):
            return part.kind(self.of(part.number))
        if isinstance(part, wire.Secret):
            return chance.randbytes(16)
        if isinstance(part, wire.Data):
            return chance.randbytes(chance.choice((0, 1, 255, 256, 4096)))
        if isinstance(part, wire.Name):
            return "".join(chance.choices("abz09-", k=chance.choice((1, 2, 31, 32))))
        if isinstance(part, wire.Maybe):
            return chance.choice((None, self.of(part.part)))
        if isinstance(part, wire.Lines):
            return tuple(self.of(part.part) for _ in range(chance.choice((0, 1, part.count.most))))
        return part.kind(*map(self.of, part.parts.values()))

    def body(self, kind, parts):
        return kind(*map(self.of, parts.values()))

    def changed(self, body):
        """A body of which a byte was changed, taken away or put in."""
        body, place = bytearray(body), self.chance.randrange(len(body))
        body[place : place + self.chance.choice((0, 1, 1, 1))] = self.chance.randbytes(self.chance.choice((0, 1, 1, 1)))
        return bytes(body)


class Bytes(unittest.TestCase):
    """What it spells and reads. `./check clients` compares that with the frames of the page."""

    def test_what_it_spells_is_read_back(self):
        made = Made(1)
        for version in (1, 2):
            for kind in (requests.Hello, *requests.REQUESTS):
                for _ in range(COUNT):
                    said = made.body(kind, kind.parts)
                    rest = wire.Rest(said.frame(version)[5:], version)
                    self.assertEqual(kind(*wire.take_fields(rest, kind.parts)), said)
                    rest.end()
            for kind, parts in COMES.values():
                for _ in range(COUNT):
                    said = made.body(kind, parts)
                    self.assertEqual(replies.read_body(frame_of(said, version)[4:], version), said)

    def test_each_value_has_one_spelling(self):
        """Whatever bytes come, they are no body, or just the spelling of what is read."""
        made, read = Made(2), 0
        for kind, parts in COMES.values():
            for _ in range(10 * COUNT):
                body = made.changed(frame_of(made.body(kind, parts), 2)[4:])
                try:
                    said = replies.read_body(body, 2)
                except it.Unreadable:
                    continue
                read += 1
                self.assertEqual(frame_of(said, 2)[4:], body)
        self.assertGreater(read, COUNT)

    def test_what_is_out_of_its_range_is_no_body(self):
        made = it.ObjectId(7, 0, 1)
        for asked in (
            requests.Create(16),
            requests.Create(-1),
            requests.Read(it.ObjectId(2**32 - 1, 0, 1), 0, 1),
            requests.Read(it.ObjectId(7, 16, 1), 0, 1),
            requests.Read(it.ObjectId(7, 0, 0), 0, 1),
            requests.Read(made, 2**32, 1),
            requests.Read(made, 0, 1, 2**64),
            requests.SetAcl(made, 9, it.Rights.ADMIN),
            requests.GetAclByIndex(made, 256),
            requests.PCreate("", made),
            requests.PCreate("a" * 33, made),
            requests.PCreate("a_b", made),
            requests.PList(it.EVERYONE),
            requests.SetBudget(it.Purse(7, 0), 2**32),
            requests.Write(made, 0, bytes(131072 - 16)),
        ):
            with self.subTest(asked), self.assertRaises(ValueError):
                asked.frame(2)


class Served(unittest.TestCase):
    """All requests, to a server."""

    def served(self):
        return Server(logins=LOGINS, window=1000000, workers=2, connections=0)

    @staticmethod
    def drive(server, who, client=1, version=2):
        return it.Drive(server.address, who, client, SECRETS[who], version, timeout=60)

    def test_data_and_attributes(self):
        for version, most in ((1, 4096), (2, 65536)):
            with self.subTest(version=version), self.served() as server, self.drive(server, 7, version=version) as drive:
                made = drive.create(3)
                self.assertEqual(made, it.ObjectId(7, 3, 1))
                drive.write(made, b"hello")
                drive.write(made, b"J")
                drive.append(made, b", you")
                drive.write(made, b"!", offset=12)
                self.assertEqual(drive.read(made).data, b"Jello, you\0\0!")
                self.assertEqual(drive.read(made, 7, 3).data, b"you")
                drive.truncate(made, 5)
                told = drive.read(made)
                self.assertEqual((told.data, told.grant.index), (b"Jello", 0))
                drive.set_attributes(made, b"\0\xff")
                self.assertEqual(drive.get_attributes(made), replies.Attr(told.grant, b"\0\xff"))
                drive.write(made, bytes(most))
                for ask in (lambda: drive.append(made, b"x"), lambda: drive.truncate(made, most + 1), lambda: drive.set_attributes(made, bytes(257))):
                    with self.assertRaises(it.TooLong):
                        ask()
                drive.delete(made)
                with self.assertRaises(it.NoObject):
                    drive.read(made)

    def test_the_past(self):
        with self.served() as server, self.drive(server, 7) as drive, self.drive(server, 0) as administrator:
            made = drive.create()
            moment = drive.audit(7).lines[0].moment
            while drive.audit(7).lines[-1].moment <= moment:
                pass
            drive.write(made, b"66")
            self.assertEqual(drive.read(made, at=moment).data, b"")
            with self.assertRaises(it.Future):
                drive.read(made, at=2**64 - 1)
            # (the first value is the only one that began by then)
            administrator.flush_object(made, 0, 2**64 - 1)
            with self.assertRaises(it.Flushed):
                drive.read(made, at=moment)
            with self.assertRaises(it.BadRange):
                administrator.flush(2, 1)
            with self.assertRaises(it.Denied) as raised:
                drive.set_window(5)
            self.assertEqual(raised.exception.lacking, it.Rights.ADMIN)
            administrator.set_window(0)
            with self.assertRaises(it.TooOld) as raised:
                drive.read(made, at=moment)
            self.assertGreater(raised.exception.horizon, moment)

    def test_what_stood_there_before(self):
        """The intrusion of README: what was paid is changed, and the past tells it."""
        with self.served() as server, self.drive(server, 7) as drive:
            made = drive.create()
            drive.write(made, b"pay 12")
            before = drive.whole_audit(7)[-1].moment
            time.sleep(0.01)
            drive.write(made, b"66", offset=4)
            self.assertEqual((drive.read(made).data, drive.read(made, at=before).data), (b"pay 66", b"pay 12"))

    def test_rights(self):
        with self.served() as server, self.drive(server, 7) as owner, self.drive(server, 9) as guest:
            made = owner.create()
            with self.assertRaises(it.Denied) as raised:
                guest.read(made)
            self.assertEqual(raised.exception.lacking, it.Rights.READ)
            owner.set_entry(made, 9, it.Rights.READ | it.Rights.RECOVER)
            owner.set_entry(made, it.EVERYONE, it.Rights.DELETE)
            told = guest.get_entry(made, 9)
            self.assertEqual((told.index, told.user, told.rights, told.grant.index), (1, 9, it.Rights.READ | it.Rights.RECOVER, 1))
            self.assertEqual(owner.get_entry_at(made, 2).user, it.EVERYONE)
            self.assertEqual(owner.get_entry(made, it.EVERYONE).rights, it.Rights.DELETE)
            with self.assertRaises(it.NoEntry):
                owner.get_entry_at(made, 255)
            owner.set_entry(made, it.EVERYONE, it.Rights(0))
            with self.assertRaises(it.NoEntry):
                owner.set_entry(made, it.EVERYONE, it.Rights(0))
            for user in range(100, 114):
                owner.set_entry(made, user, it.Rights.READ)
            with self.assertRaises(it.AclFull):
                owner.set_entry(made, 200, it.Rights.READ)

    def test_names(self):
        with self.served() as server, self.drive(server, 7) as drive:
            purse, made = it.Purse(7, 0), drive.create()
            names = [f"n{number:02}" for number in range(64)]
            with drive.pipeline() as pipeline:
                bound = [pipeline.ask(requests.PCreate(name, made)) for name in names]
            self.assertEqual({type(one.value()) for one in bound}, {replies.Done})
            with self.assertRaises(it.Exists):
                drive.bind("n00", made)
            with self.assertRaises(it.PartsFull):
                drive.bind("more", made)
            second = drive.create(1)
            drive.bind("home", second)
            self.assertEqual([line.name for line in drive.all_names(7)], [*names, "home"])
            self.assertEqual(drive.list_names(7, it.Place(1, "a")).lines[0].object, second)
            self.assertEqual(drive.mount(purse, "n63").object, made)
            drive.unbind(purse, "n63")
            with self.assertRaises(it.NoPartition):
                drive.mount(purse, "n63")
            with self.assertRaises(it.Named):
                drive.delete(second)

    def test_budgets(self):
        with self.served() as server, self.drive(server, 7) as drive, self.drive(server, 0) as administrator:
            made = drive.create()
            administrator.set_budget(it.Purse(7, 0), 100)
            drive.write(made, b"first")
            with self.assertRaises(it.OverBudget) as raised:
                drive.write(made, b"again")
            self.assertEqual(raised.exception, it.OverBudget(64, 69, 100))

    def test_an_audit_is_told_whole(self):
        with self.served() as server, self.drive(server, 7, client=5) as drive, self.drive(server, 0, client=6) as administrator:
            made = drive.create()
            drive.ask_all([requests.Append(made, b"x")] * 99)
            lines = administrator.whole_audit(7)
            mine = [line for line in lines if line.client == 5]
            self.assertEqual([line.code for line in mine], [1] + [5] * 99)
            self.assertEqual({line.code for line in lines if line.client == 6}, {20})

    def test_threads_share_a_connection_and_take_those_of_a_pool(self):
        with self.served() as server, self.drive(server, 7) as drive:
            objects = [drive.create() for _ in range(20)]
            for made in objects:
                drive.write(made, str(made).encode())

            def read(made):
                return drive.read(made).data == str(made).encode()

            def read_by_pool(made):
                with pool.drive() as one:
                    return one.read(made).data == str(made).encode()

            with ThreadPoolExecutor(8) as threads, it.Pool(server.address, 7, 100, SECRETS[7], size=3) as pool:
                self.assertTrue(all(threads.map(read, objects * 30)))
                self.assertTrue(all(threads.map(read_by_pool, objects * 30)))
            self.assertLessEqual({line.client for line in drive.whole_audit(7)}, {1, 100, 101, 102})

    def test_asyncio(self):
        async def story(address):
            async with await aio.Drive.connect(address, 7, 1, SECRETS[7]) as drive, await aio.Drive.connect(address, 0, 2, SECRETS[0]) as administrator:
                made = await drive.create()
                await drive.write(made, b"hello")
                told = await asyncio.gather(*(drive.read(made, offset, 1) for offset in range(5)))
                await drive.append(made, b"!")
                await drive.truncate(made, 2)
                await drive.set_attributes(made, b"a")
                await drive.set_entry(made, 9, it.Rights.READ)
                await drive.bind("home", made)
                got = (
                    b"".join(one.data for one in told),
                    (await drive.read(made)).data,
                    (await drive.get_attributes(made)).data,
                    (await drive.get_entry(made, 9)).index,
                    (await drive.get_entry_at(made, 1)).user,
                    [line.name for line in (await drive.list_names(7)).lines],
                    (await drive.mount(it.Purse(7, 0), "home")).object == made,
                    len((await drive.audit(7)).lines),
                )
                await drive.unbind(it.Purse(7, 0), "home")
                await drive.delete(made)
                await administrator.set_budget(it.Purse(7, 0), 5)
                await administrator.flush_object(made, 0, 1)
                await administrator.flush(0, 1)
                await administrator.set_window(9)
                with self.assertRaises(it.NoObject):
                    await drive.read(made)
                return got

        with self.served() as server:
            self.assertEqual(asyncio.run(story(server.address)), (b"hello", b"he", b"a", 1, 9, ["home"], True, 18))

    def test_its_status_is_a_page(self):
        with self.served() as server, self.drive(server, 7) as drive:
            drive.create()
            until(lambda: (server.status() or {"records": 0})["records"], "the status counts a record")
            lines = page(Reading.of(server.folder / "status"))
            self.assertIn("records        1, 3 values", lines)
            self.assertIn("connections    1 open: 0 not welcomed, 1 welcomed, 0 leaving", lines)
            self.assertFalse([line for line in lines if line.startswith("!")])

    def test_a_server_that_ends_is_told(self):
        with self.served() as server, self.drive(server, 7) as drive:
            made = drive.create()
            ended = threading.Thread(target=server.end)
            ended.start()
            with self.assertRaises((it.Lost, OSError)):
                while True:
                    drive.append(made, b"x")
            ended.join()
            self.assertFalse(drive.is_open)
