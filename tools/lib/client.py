"""The client for Python (clients/python), as tools and tests use it: its values, its connections, and the frames of what comes."""
import sys

from tools.lib.programs import TOP

sys.path.insert(0, str(TOP / "clients/python/src"))

# (all of its names are those of this module)
# pylint: disable=wildcard-import,unused-wildcard-import
from visorgal.drive import Drive
from visorgal.errors import *
from visorgal.replies import *
from visorgal.replies import COMES
from visorgal.requests import *
from visorgal.values import *
from visorgal.wire import LENGTH_OF_BODY, LENGTH_OF_DATA, spell_fields


class Connection(Drive):
    """A connection whose socket may be written and read past it, by whoever measures."""

    @property
    def socket(self):
        return self._open()


def frame_of(said, version):
    """The frame of a request, or of what comes."""
    if isinstance(said, Body):
        return said.frame(version)
    front, parts = next((front, parts) for front, (kind, parts) in COMES.items() if type(said) is kind)
    body = front + spell_fields(said, parts, version)
    return len(body).to_bytes(4, "big") + body
