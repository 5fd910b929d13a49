"""Servers whose journal stands on a small disk of its own that is full, takes nothing, or is gone; and two servers on one folder."""
import contextlib
import subprocess
import tempfile
import time
from dataclasses import dataclass
from pathlib import Path

from tools.lib import client as it
from tools.lib.findings import Wrong
from tools.lib.keeping import checked_as, told
from tools.lib.servers import PATIENCE, Server

# The disk has so much at first, and then so much; so many writes of so many bytes are more than the first.
SMALL, LARGE = "128k", "16m"
WRITES, BYTES = 200, 1000
# The status is looked at again after so many seconds.
AGAIN = 0.1


class NoMount(Exception):
    """No file system can be mounted here."""


def mount(*words):
    """Calls the system's mount."""
    done = subprocess.run(["mount", *words], capture_output=True, text=True, check=False)
    if done.returncode != 0:
        raise NoMount(done.stderr.strip())


@contextlib.contextmanager
def disk(room, size):
    """A disk of so many bytes, mounted in this folder."""
    where = room / "disk"
    where.mkdir()
    mount("-t", "tmpfs", "-o", f"size={size},mode=700", "tmpfs", where)
    try:
        yield where
    finally:
        # (it isn't there any more where a scene took it away)
        subprocess.run(["umount", "-l", where], capture_output=True, check=False)


class Keeping(Server):
    """A server that keeps a journal in this folder."""

    def wait(self, wanted, what):
        """Waits until the status tells of the journal what is wanted."""
        end = time.monotonic() + PATIENCE
        while time.monotonic() < end:
            with contextlib.suppress(OSError, ValueError):
                status = self.status()
                if status and wanted(status["journal"]):
                    return
            time.sleep(AGAIN)
        raise Wrong(f"the status never tells that {what}")


@dataclass
class Scene:
    """What a scene has: the program, a folder, further flags of its servers, and what is ended behind it."""

    program: Path
    room: Path
    flags: tuple
    behind: contextlib.ExitStack

    def serve(self, kept, *flags, room=None):
        """A server that keeps a journal in the folder `kept`."""
        server = Keeping(self.program, "--journal", kept, *flags, folder=room or self.room)
        self.behind.callback(server.kill)
        return server


def wanted(found, right, what):
    if found != right:
        raise Wrong(f"{what}: {found!r} in the place of {right!r}")


def fill(drive, made, begin, count):
    """Writes so often, and reads each: all are carried out."""
    for number in range(begin, begin + count):
        data = number.to_bytes(2, "big") * (BYTES // 2)
        wanted(drive.ask(it.Write(made, 0, data)), it.Done(), "a Write")
        wanted(drive.ask(it.Read(made, 0, 2)).data, data[:2], "a Read")


def is_kept(program, folder, last, asked):
    """Whether the journal is sound, and has all records that the server tells of: so many."""
    wanted(last, [f"closed {asked}"], "the last line")
    checked_as(program, folder, "sound")
    wanted(len(told(program, "history", "script", folder).splitlines()) - 1, asked, "lines of the script")


def full_and_then_not(scene):
    """A disk that is full while the server goes on, and then has room again: nothing is missing, and nothing stands there twice."""
    with disk(scene.room, SMALL) as where:
        server = scene.serve(where / "kept", *scene.flags)
        with server.log_in(7, 1, 2) as drive:
            made = drive.ask(it.Create(0)).object
            fill(drive, made, 0, WRITES)
            server.wait(lambda told: told["fails"], "the disk is full")
            fill(drive, made, WRITES, 5)
            mount("-o", f"remount,size={LARGE}", where)
            server.wait(lambda told: not told["fails"], "the disk has room again")
            fill(drive, made, WRITES + 5, 5)
        output, errors = server.end()
        wanted(errors[:1], ["s4d: journal: cannot write"], "what it says of the full disk")
        is_kept(scene.program, where / "kept", output[-1:], 1 + 2 * (WRITES + 10))


def full_to_the_end(scene):
    """A disk that stays full: the server goes on and ends well, and what stands there is a beginning."""
    with disk(scene.room, SMALL) as where:
        server = scene.serve(where / "kept", *scene.flags)
        with server.log_in(7, 1, 2) as drive:
            fill(drive, drive.ask(it.Create(0)).object, 0, WRITES)
            server.wait(lambda told: told["fails"], "the disk is full")
        output, errors = server.end()
        wanted(output[-1:], [f"closed {1 + 2 * WRITES}"], "the last line")
        wanted("s4d: journal: cannot write" in errors, True, "it says that it couldn't write")
        checked_as(scene.program, where / "kept", "broken off")


def refused(scene, room, kept, why):
    """A server that doesn't start with this folder, and says why in one line."""
    server = scene.serve(kept, room=room)
    status = server.process.wait(timeout=PATIENCE)
    wanted((server.first, server.errors(), status), ("", f"s4d: {why}\n", 1), "how it ends")


def read_only(scene):
    """A disk on which nothing can be made."""
    with disk(scene.room, LARGE) as where:
        mount("-o", "remount,ro", where)
        refused(scene, scene.room, where / "kept", f"cannot write {where / 'kept'}: Read-only file system")


def gone(scene):
    """A disk that is taken away while the server goes on: it ends well."""
    with disk(scene.room, LARGE) as where:
        server = scene.serve(where / "kept", *scene.flags)
        with server.log_in(7, 1, 2) as drive:
            made = drive.ask(it.Create(0)).object
            fill(drive, made, 0, 5)
            subprocess.run(["umount", "-l", where], check=True)
            fill(drive, made, 5, 5)
        wanted(server.end()[0][-1:], ["closed 21"], "the last line")


def two_servers(scene):
    """Two servers on one folder: the second isn't started, and the first one's journal is as it would be."""
    folder, second = scene.room / "kept", scene.room / "second"
    server = scene.serve(folder, *scene.flags)
    with server.log_in(7, 1, 2) as drive:
        made = drive.ask(it.Create(0)).object
        second.mkdir()
        refused(scene, second, folder, f"another server keeps its journal in {folder}")
        fill(drive, made, 0, 5)
    is_kept(scene.program, folder, server.end()[0][-1:], 11)


SCENES = (full_and_then_not, full_to_the_end, read_only, gone, two_servers)


def trouble_in(scene, program, sync):
    """Why a scene with this way to sync isn't right, or none."""
    try:
        with tempfile.TemporaryDirectory(prefix="disks-") as room, contextlib.ExitStack() as behind:
            scene(Scene(program, Path(room), ("--sync", sync), behind))
    except (Wrong, OSError, it.Refused, it.Fault, subprocess.TimeoutExpired) as why:
        return why
    return None


def try_disks(program):
    """Tries all scenes with each way to sync. Tells how many were wrong, and prints why."""
    tried, wrong = 0, 0
    for scene in SCENES:
        for sync in ("second", "never"):
            try:
                why = trouble_in(scene, program, sync)
            except NoMount as reason:
                print(f"{scene.__name__}: not tried, since nothing can be mounted here: {reason}")
                continue
            if why:
                wrong += 1
                print(f"{scene.__name__}, --sync {sync}: {why}")
            tried += 1
    print(f"journals: {tried} scenes of disks, {wrong} wrong")
    return wrong
