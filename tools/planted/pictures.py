"""Mistakes that are planted in a copy of the pictures, to see that each is found."""
import shutil
import tempfile
from pathlib import Path

from tools.lib.findings import tell
from tools.lib.pictures import CRATES, FOLDER, with_sum, wrong_pictures
from tools.lib.programs import TOP

OLDER, LACKS, WRONG, GROUP = "it is older than", "the arrow from {} to {} isn't there", "the arrow from {} to {} is no edge", "the group '{}' isn't"
# What is put in the place of what in a file, and where which faults are found then.
PLANTED = [
    (CRATES, "s4_talk -> s4_stream", "s4_talk -> s4_codec", [
        (CRATES, LACKS.format("s4_talk", "s4_stream")), (CRATES, WRONG.format("s4_talk", "s4_codec")), (f"{FOLDER}/crates.svg", OLDER)]),
    (CRATES, "s4_judge -> s4_acl", "s4_judge -> s4_acl -> s4_store", [(CRATES, WRONG.format("s4_acl", "s4_store")), (f"{FOLDER}/crates.svg", OLDER)]),
    (CRATES, "s4_judge -> s4_acl", "s4_judge -> { s4_acl s4_types }", [(CRATES, WRONG.format("s4_judge", "s4_types")), (f"{FOLDER}/crates.svg", OLDER)]),
    (CRATES, "  s4_names -> s4_types", "  // s4_names -> s4_types", [(CRATES, LACKS.format("s4_names", "s4_types")), (f"{FOLDER}/crates.svg", OLDER)]),
    (CRATES, "s4_laws -> s4_types", 's4_laws -> s4_types "s4_jobs" -> s4_types', [(CRATES, "an arrow stands in a form"), (f"{FOLDER}/crates.svg", OLDER)]),
    ("crates.txt", "s4_jobs: ", "s4_jobs: s4_types ", [(CRATES, LACKS.format("s4_jobs", "s4_types"))]),
    ("crates.txt", "s4_client: s4_types s4_codec s4_stream", "s4_client: s4_types s4_codec", [
        (CRATES, LACKS.format("s4_client", "s4_codec")), (CRATES, LACKS.format("s4_command", "s4_stream")), (CRATES, WRONG.format("s4_client", "s4_stream"))]),
    ("crates.txt", "# the hall\n", "", [(CRATES, GROUP.format("bytes and texts")), (CRATES, GROUP.format("the hall"))]),
    (f"{FOLDER}/threads.dot", "puts", "hands", [(f"{FOLDER}/threads.svg", OLDER)]),
    (f"{FOLDER}/request.svg", "<!-- SHA-256", "<!-- Sum", [(f"{FOLDER}/request.svg", OLDER)]),
    ("docs/THREADS.md", "(pictures/threads.svg)", "(pictures/nothing.svg)", [(f"{FOLDER}/threads.svg", "no page shows it")]),
    (f"{FOLDER}/measured.csv", "1,2", "1,3", [(f"{FOLDER}/measured.svg", OLDER)]),
    (f"{FOLDER}/measured.svg", "<!-- SHA-256", "<!-- Sum", [(f"{FOLDER}/measured.svg", OLDER)]),
]


def faults_of_plant(room, before, plant):
    """What isn't found once this is planted, and what else is found."""
    file, old, new, wanted = plant
    path = room / file
    kept = path.read_text(encoding="utf-8")
    path.write_text(kept.replace(old, new), encoding="utf-8")
    found = [(it.file, it.fault) for it in wrong_pictures(room) if it not in before]
    path.write_text(kept, encoding="utf-8")
    for where, fault in wanted:
        if old not in kept or not any(it[0] == where and it[1].startswith(fault) for it in found):
            yield f"once {file} has {new!r} for {old!r}, {fault!r} isn't said of {where}"
    for where, said in found:
        if not any(it[0] == where and said.startswith(it[1]) for it in wanted):
            yield f"once {file} has {new!r} for {old!r}, {said!r} is said of {where}"


def put_measured(room):
    """Puts a picture of what was measured into a copy, and has a page show it."""
    source, page = room / FOLDER / "measured.csv", room / "docs/THREADS.md"
    source.write_text("second,bytes\n1,2\n", encoding="ascii")
    source.with_suffix(".svg").write_text(with_sum("<svg/>", source), encoding="ascii")
    page.write_text(page.read_text(encoding="utf-8") + "\n![Of bytes](pictures/measured.svg)\n", encoding="utf-8")


def self_test(_):
    """Plants mistakes in a copy. Returns whether each is found, and nothing else."""
    with tempfile.TemporaryDirectory(prefix="pictures-") as folder:
        room = Path(folder)
        shutil.copytree(TOP / "docs", room / "docs")
        shutil.copy(TOP / "crates.txt", room)
        put_measured(room)
        before = wrong_pictures(room)
        faults = [fault for plant in PLANTED for fault in faults_of_plant(room, before, plant)]
    return tell([f"pictures: {it}" for it in faults], f"pictures: {len(PLANTED)} planted mistakes are found")
