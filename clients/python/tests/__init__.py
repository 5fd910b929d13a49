"""Tests of the client over connections whose other side is played here. `python3 -m unittest discover -s tests -t .` runs them."""
import logging
import sys
from pathlib import Path

# (tests of asyncio run in its mode for debugging, which tells of each slow step)
logging.getLogger("asyncio").setLevel(logging.ERROR)
sys.path.insert(0, str(Path(__file__).resolve().parent.parent / "src"))
