"""What others have of a server while somebody attacks it: tenants who ask now and then, and newcomers who log in."""
import array
import time

from tools.lib import client as it
from tools.lib.crews import PATIENCE
from tools.lib.loads import CLIENT, PURSE, SMALL, VERSION, Batch
from tools.lib.servers import secret_of

# A tenant asks for one thing each so many seconds, and a newcomer logs in each so many; a login fails that takes longer than that.
EACH, LOGINS, PATIENT = 0.005, 0.2, 10


def waited(due):
    """Waits until something is due, where it isn't yet."""
    time.sleep(max(0, due - time.monotonic()))


def ask_now_and_then(address, who, stage, place):
    """A tenant, who reads 16 bytes each 5 milliseconds by one connection. Tells how long each reply took since its request was due: one that has to wait for an
    earlier one is due all the same."""
    drive = it.Connection(address, who, CLIENT, secret_of(who), VERSION, PATIENCE)
    made = drive.ask(it.Create(PURSE)).object
    drive.ask(it.Write(made, 0, bytes(SMALL)))
    read = it.Read(made, 0, SMALL)
    asked, times = Batch([(read, drive.ask(read))]), array.array("f")
    yield None
    due = stage.begin.value + EACH * place / len(stage.replies)
    while not stage.is_over.value:
        waited(due)
        drive.socket.sendall(asked.sent)
        came = 0
        while came < len(asked.wanted):
            came = asked.taken(came, drive.socket.recv(1 << 16))
        times.append(time.monotonic() - due)
        stage.replies[place] += 1
        due += EACH
    yield times


def logs_in(address, who):
    """Whether a login is welcomed."""
    try:
        it.Connection(address, who, CLIENT, secret_of(who), VERSION, PATIENT).close()
    except (OSError, it.Fault, it.Unreadable):
        return False
    return True


def log_in_now_and_then(address, who, stage):
    """A newcomer, who logs in five times a second by a connection of its own. Tells how long each login took since it was due, and how many failed."""
    times, failed = array.array("f"), 0
    yield None
    due = stage.begin.value
    while not stage.is_over.value:
        waited(due)
        if logs_in(address, who):
            times.append(time.monotonic() - due)
        else:
            failed += 1
        due = max(due + LOGINS, time.monotonic())
    yield times, failed
