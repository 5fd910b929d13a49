"""Makes the pictures that pages show: each docs/pictures/NAME.svg from the NAME.dot beside it.

  ./check pictures        makes all anew, by graphviz: look at them before you commit them
      --look              makes nothing, and needs no graphviz: whether each picture was made from its .dot as it is now, or from its .csv,
                          which `./check measure memory` measured; whether it is shown in a page; and whether that of the crates has the groups of
                          crates.txt, and its edges that don't follow from others
      --self-test         plants mistakes in a copy, and fails unless each is found

An SVG file has the SHA-256 of its .dot or .csv in a comment. Crates of tests and those of the kit aren't in the picture of the crates.
Pictures are laid out with DejaVu Sans, which is wide: so words fit their boxes where a reader's machine has other fonts.
"""
from tools.lib.commands import Options
from tools.lib.findings import tell
from tools.lib.pictures import draw, wrong_pictures
from tools.lib.programs import TOP

OPTIONS = Options(flags=("look", "self-test"))


def run(given):
    if not given.look:
        print(f"pictures: {draw(TOP)} made")
    return tell(wrong_pictures(TOP), "pictures: each was made from the file beside it, and that of the crates is as crates.txt says")
