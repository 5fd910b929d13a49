"""How large pages may be, and how long the sentences of their first screens: a reader's time is bounded."""
import os
import re

from tools.lib.findings import Finding

# The most bytes of a page, or of a folder's pages together.
MOST_BYTES = {"docs/PROVED.md": 20_000, "docs/MODEL.md": 35_000, "docs/OPERATIONS.md": 20_000, "docs/DECISIONS.md": 31_500, "docs/": 305_000}
# On the first screens of which pages, or folders of pages, the words of sentences are counted.
COUNTED = ("README.md", "docs/")
# The most words of a sentence there; how many rows of how many characters a screen has.
MOST_WORDS, ROWS, COLUMNS = 25, 40, 120

# What is no running text: fences, headings, tables, marks of what is made, and pictures.
NO_TEXT = re.compile(r"\s*(?:```|#|\||<!--|!\[)")
ITEM = re.compile(r"^\s*(?:[-*]|\d+\.) +")
END = re.compile(r"(?<=[.!?])[\"')*]*\s+(?=[\"'(*`\[]*[A-Z`\[])")
WORD = re.compile(r"[\w'’][\w'’-]*")


def pages_at(checkout, place):
    """The pages of a folder, whose name ends in a slash, or the page of this name."""
    return [it for it in checkout.pages if it == place or place == f"{os.path.dirname(it)}/"]


def faults_of_sizes(checkout, bounds):
    """The pages, and the folders of pages, that have more bytes than these bounds."""
    for place, most in bounds.items():
        size = sum(len(checkout.pages[it].encode()) for it in pages_at(checkout, place))
        checkout.count += 1
        if size > most:
            yield Finding(place, 1, f"{size} bytes, and at most {most} are wanted")


def first_screen(text):
    """The lines of a page's first screen, each with its number, and whether it is fenced."""
    rows, is_fenced = 0, False
    for number, line in enumerate(text.split("\n"), 1):
        rows += max(1, -(-len(line) // COLUMNS))
        if rows > ROWS:
            return
        is_fenced ^= line.lstrip().startswith("```")
        yield number, line, is_fenced


def paragraphs(text):
    """The paragraphs and items of a page's first screen: of each the number of its first line, and its text."""
    begun, rows = 1, []
    for number, line, is_fenced in [*first_screen(text), (0, "", False)]:
        is_text = line.strip() and not is_fenced and not NO_TEXT.match(line)
        if rows and (not is_text or ITEM.match(line)):
            yield begun, " ".join(rows)
            rows = []
        if is_text:
            begun = begun if rows else number
            rows.append(ITEM.sub("", line).strip())


def sentences(text):
    """The sentences of a text. What is code is a word, and so is a link's end."""
    plain = re.sub(r"`[^`]*`", "`Code`", text)
    return END.split(re.sub(r"\]\([^)]*\)", "]", plain))


def faults_of_sentences(checkout, places):
    """The sentences on the first screens of these pages that have too many words."""
    for page in (it for place in places for it in pages_at(checkout, place)):
        for number, text in paragraphs(checkout.pages[page]):
            for sentence in sentences(text):
                words = WORD.findall(sentence)
                checkout.count += 1
                if len(words) > MOST_WORDS:
                    begin = " ".join(words[:6])
                    yield Finding(page, number, f"a sentence of {len(words)} words on the first screen, and at most {MOST_WORDS} are wanted: {begin} ..")


def faults_of_bounds(checkout):
    """What is above the bounds that hold."""
    yield from faults_of_sizes(checkout, MOST_BYTES)
    yield from faults_of_sentences(checkout, COUNTED)
