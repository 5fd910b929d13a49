"""What is planted in small crates, tried over what was proved of them, and over libraries, to see that each wrong body comes out as it should."""
import tempfile
from pathlib import Path

from tools.lib.findings import tell
from tools.planted.after_ci import self_test_over_libraries
from tools.planted.small_crate import OF_COPIES, PLANTS, faults_in, planted, said_of


def self_test_over_proofs():
    """Tries what is planted. Returns whether each edit comes out as it should."""
    with tempfile.TemporaryDirectory(prefix="wrong-bodies-") as room:
        faults = faults_in(said_of(planted(Path(room), OF_COPIES))[0], OF_COPIES)
    return tell(faults, f"wrong-bodies: {len(PLANTS) - len(OF_COPIES)} planted edits come out as they should, one right body as not refused")


def self_test(_):
    """Tries what is planted in either way."""
    return self_test_over_proofs() and self_test_over_libraries()
