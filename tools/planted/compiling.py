"""Small programs in C in which mistakes are planted."""
from pathlib import Path

from tools.lib.refusing import Program, compiled

HERE = Path(__file__).resolve().parent


def compiled_to(room, source, name, number, kind=Program):
    """A planted program, in a folder of its own."""
    place = Path(room) / f"{name}-{number}"
    place.mkdir()
    return kind(compiled(HERE / source, place / "program", f"-D{name}={number}", "-fno-builtin"), place)
