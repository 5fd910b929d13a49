"""Checks what pages, pictures and code refer to, in some seconds.

  ./check references        each page and section that code or a page cites, each clause that README.md, docs/PROVED.md and docs/TRUST.md
                            name in italics, each file, check and measure that a page names, each crate, function and file that a picture
                            names, and each example that a page shows: whether it is there; whether docs/TRUST.md tells the definitions, the kit
                            and its ported crates as they are; and the bounds of tools/lib/page_bounds.py that hold: of pages' sizes, and of
                            the sentences on their first screens
      --count               counts the definitions that theorems reach, and writes the tables of docs/TRUST.md
      --self-test           plants wrong references in a copy, and fails unless each is found

It prints a line for each wrong reference: the file, the line, and what isn't there. Pages are README.md, docs/*.md and docs/measured/*.md. A
section is cited by its name in quotes behind its page, or by a link to its anchor. A clause has to be one of a function, trait or type that is
named in the same paragraph or item, in a crate that is named there or in the heading above.
"""
from tools.lib.commands import Options
from tools.lib.findings import tell_all
from tools.lib.page_bounds import faults_of_bounds
from tools.lib.pages import Checkout, wrong_references
from tools.lib.picture_names import faults_of_pictures
from tools.lib.programs import TOP
from tools.lib.trust import PAGE, with_table, wrong_trust

OPTIONS = Options(flags=("self-test", "count"))


def wrong(checkout):
    """All that is wrong with the references of a checkout, in the order of their places."""
    return sorted({*wrong_references(checkout), *faults_of_pictures(checkout), *faults_of_bounds(checkout), *wrong_trust(checkout.root)})


def run(given):
    if given.count:
        page = (TOP / PAGE).read_text(encoding="utf-8")
        (TOP / PAGE).write_text(with_table(TOP, page), encoding="utf-8")
        return True
    checkout = Checkout(TOP)
    found = wrong(checkout)
    return tell_all(found, f"references: {len(found)} of {checkout.count} in {len(checkout.pages)} pages and in code are wrong")
