"""What the system tells of processes and of the machine."""
import ctypes
import os
import re
import signal
import sys
from pathlib import Path

TICKS = os.sysconf("SC_CLK_TCK")
DIES_WITH_PARENT = 1


def end_with_parent():
    """Has the system end this process once the one that started it has ended, however that came."""
    ctypes.CDLL(None).prctl(DIES_WITH_PARENT, signal.SIGKILL)


def told_in_bytes(file, name):
    """The bytes of which a file of the system tells under this name, or none."""
    found = re.search(rf"^{name}:\s*(\d+) kB", Path(file).read_text(encoding="utf-8"), re.M)
    return int(found[1]) << 10 if found else None


def resident(process):
    """The bytes that a process has resident, or none where it has ended."""
    return told_in_bytes(f"/proc/{process}/status", "VmRSS")


def most_resident(process):
    """The most bytes that a process had resident so far, or none where it has ended."""
    return told_in_bytes(f"/proc/{process}/status", "VmHWM")


def available():
    """The bytes that the machine has for whoever wants them."""
    return told_in_bytes("/proc/meminfo", "MemAvailable")


def stat_of(process):
    """What the system tells of a process behind its name."""
    return Path(f"/proc/{process}/stat").read_text(encoding="utf-8").rpartition(")")[2].split()


def processor_time(process):
    """The seconds of processors that a process has used."""
    words = stat_of(process)
    return (int(words[11]) + int(words[12])) / TICKS


def begun(process):
    """When a process began, so that it's told from others of its number."""
    return stat_of(process)[19]


def machine_time():
    """The seconds of processors that all processes of the machine have used."""
    user, nice, system, _, _, *others = map(int, Path("/proc/stat").read_text(encoding="ascii").splitlines()[0].split()[1:9])
    return (user + nice + system + sum(others[:2])) / TICKS


def spent():
    """The seconds of processors that this process has used, and all that it waited for."""
    it = os.times()
    return it.user + it.system + it.children_user + it.children_system


def exit_when_told():
    """Has this process go through its ends where the system tells it to end."""
    for number in (signal.SIGTERM, signal.SIGHUP):
        signal.signal(number, lambda *_: sys.exit(1))
