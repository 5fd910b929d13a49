"""Checks the types of the client for Python, builds and installs it, and runs its README's example on a server.

  ./check python-client   with Debian's mypy, python3-setuptools, python3-wheel and python3-pip, or others' of these
      --program PATH      the program; else bin/s4d or crates/s4d/out/s4d, the one that was built last

The tests of the client need nothing of that: `./check outside client` runs them.
"""
import re
import shutil
import subprocess
import sys
import tempfile
import venv
from pathlib import Path

from tools.lib.commands import Options
from tools.lib.findings import Wrong, tell
from tools.lib.programs import TOP, program_of
from tools.lib.servers import SECRETS, Server

OPTIONS = Options(texts=("program",))
CLIENT = TOP / "clients/python"
EXAMPLE = re.compile(r"```python\n(from visorgal import Drive\n.*?)```", re.S)


def called(*words, folder=CLIENT):
    """What a command writes; raises what it says where it fails."""
    done = subprocess.run(list(map(str, words)), cwd=folder, capture_output=True, text=True, check=False)
    if done.returncode:
        raise Wrong(f"{' '.join(map(str, words))}: {(done.stdout + done.stderr).strip()}")
    return done.stdout


def builder():
    """An interpreter that can build wheels."""
    for python in (sys.executable, "/usr/bin/python3"):
        if not subprocess.run([python, "-c", "import setuptools, wheel, pip"], capture_output=True, check=False).returncode:
            return python
    raise Wrong("no Python here has pip, setuptools and wheel")


def installed(room):
    """The interpreter of an environment that has the built client alone."""
    # (it is built from a copy, since that leaves files beside the sources)
    shutil.copytree(CLIENT, Path(room) / "sources")
    called(builder(), "-m", "pip", "wheel", "--quiet", "--no-deps", "--no-build-isolation", "--no-index", "--wheel-dir", room, Path(room) / "sources")
    wheel = next(Path(room).glob("*.whl"))
    venv.create(Path(room) / "own", with_pip=True)
    python = Path(room) / "own/bin/python"
    called(python, "-m", "pip", "install", "--quiet", "--no-index", wheel)
    return python


def example_of(page, server):
    """The example of the README, at the address of a server and with the secret that it knows."""
    text = EXAMPLE.search(page)[1]
    return text.replace("127.0.0.1:4710", server.address).replace("000102030405060708090a0b0c0d0e0f", SECRETS[7].hex())


def run(given):
    program = program_of("python-client", given)
    called("mypy")
    with tempfile.TemporaryDirectory() as room, Server(program) as server:
        text = example_of((CLIENT / "README.md").read_text(encoding="utf-8"), server)
        said = called(installed(room), "-c", text, folder=room)
    return tell([] if said == "b'hello'\n" else [f"WRONG: the example of the README says {said!r}"], "python-client: its types are right, and its README's example says what it has to")
