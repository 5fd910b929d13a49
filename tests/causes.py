"""Lines that aren't taken, and what is told of each: the word, and what belongs there (docs/SCRIPTS.md, "Causes")."""

# What belongs at a place.
MOMENT = "a moment is a number from 0 to 18446744073709551615"
TICKS = "ticks are a number from 0 to 18446744073709551615"
MOST = "how many is a number from 0 to 18446744073709551615"
BEGINS = "a line begins with its moment, a number from 0 to 18446744073709551615, or is 'used', 'cut M' or 'sweep N'"
ARRIVES = "a line begins with its moment, a number from 0 to 18446744073709551615, or is 'sweep N'"
OPENS = "the first line is 'window' and its ticks"
WIRE, SECOND = "'wire 2' may stand here, and nothing else", "'2' belongs behind 'wire'"
PRINCIPAL = "a principal is a number from 0 to 4294967294"
CALLER = f"{PRINCIPAL}, with '/1' or '/2' behind it where they speak the other version"
RANGE = "a range is a principal, a number from 0 to 4294967294"
USER = "a user is a principal, a number from 0 to 4294967294, or 'everyone'"
VERB = (
    "a verb is create, delete, read, write, append, truncate, getattr, setattr, setacl, acl-user, acl-index, pcreate, pdelete, plist, pmount, "
    "flush, flusho, setwindow, setbudget or audit"
)
NUMBER, PURSE = "the number of a purse is from 0 to 15", "a purse is a principal and a number from 0 to 15, as 7.0"
OBJECT = "an object is a principal, the number of a purse from 0 to 15 and a serial from 1 to 65535, as 7.0.1"
NAME = "a name has 1 to 32 characters of a to z, 0 to 9 and '-'"
OFFSET, LENGTH = "an offset is a number from 0 to 4294967295", "a length is a number from 0 to 4294967295"
SKIP, BUDGET = "how many to skip is a number from 0 to 4294967295", "a budget is a number from 0 to 4294967295"
CONNECTION = "a connection is a number from 0 to 4294967295"
RIGHTS, INDEX = "rights are a sum from 0 to 31", "an index is a number from 0 to 255"
BYTES = "bytes are hexadecimal digits, an even number, or 'empty'"
AT, AFTER = "'at' and a moment may stand here, and nothing else", "'after', the number of a purse and a name may stand here, or 'at' and a moment"
EMPTY, SPACE, ENDS = "the line is empty", "one space stands between words, and none at the ends", "the line ends before it"
RETURN, NO_TEXT = "a carriage return stands behind it", "it isn't UTF-8"

# Requests, as a line of a script has them behind its moment and its principal, a call behind its secret, and a setup behind its principal: the
# request, the number of the word that is told, counted from the verb on, that word where it is shown, and what belongs there. None: it is missing.
REQUESTS = (
    ("walk", 1, "walk", VERB),
    ("creat 0", 1, "creat", VERB),
    ("Create 0", 1, "Create", VERB),
    ("create", 2, None, NUMBER),
    ("create 16", 2, "16", NUMBER),
    ("create 01", 2, "01", NUMBER),
    ("create 0 0", 3, "0", ENDS),
    ("delete 7.1", 2, "7.1", OBJECT),
    ("delete 7.0.0", 2, "7.0.0", OBJECT),
    ("delete 7.0.65536", 2, "7.0.65536", OBJECT),
    ("delete 07.0.1", 2, "07.0.1", OBJECT),
    ("delete everyone.0.1", 2, "everyone.0.1", OBJECT),
    ("read 7.0.1", 3, None, OFFSET),
    ("read 7.0.1 +1 5", 3, "+1", OFFSET),
    ("read 7.0.1 0", 4, None, LENGTH),
    ("read 7.0.1 0 4294967296", 4, "4294967296", LENGTH),
    ("read 7.0.1 0 5 yesterday", 5, "yesterday", AT),
    ("read 7.0.1 0 5 at", 6, None, MOMENT),
    ("read 7.0.1 0 5 at yesterday", 6, "yesterday", MOMENT),
    ("read 7.0.1 0 5 at 18446744073709551616", 6, "18446744073709551616", MOMENT),
    ("read 7.0.1 0 5 at 9 9", 7, "9", ENDS),
    ("write 7.0.1 0 hello", 4, "hello", BYTES),
    ("write 7.0.1 0 6", 4, "6", BYTES),
    ("write 7.0.1 0", 4, None, BYTES),
    ("write 7.0.1 0 hello-and-more-than-are-shown", 4, "hello-and-more-than-are-..", BYTES),
    ("write 7.0.1 0 68\u00e968", 4, "68??68", BYTES),
    ("append 7.0.1 0x68", 3, "0x68", BYTES),
    ("truncate 7.0.1 1.5", 3, "1.5", LENGTH),
    ("getattr 7.0.1 5", 3, "5", AT),
    ("setattr 7.0.1 Empty", 3, "Empty", BYTES),
    ("acl-user 7.0.1 nobody", 3, "nobody", USER),
    ("acl-user 7.0.1 4294967295", 3, "4294967295", USER),
    ("acl-index 7.0.1 256", 3, "256", INDEX),
    ("setacl 7.0.1 8 rw", 4, "rw", RIGHTS),
    ("setacl 7.0.1 8 32", 4, "32", RIGHTS),
    ("pcreate My_File 7.0.1", 2, "My_File", NAME),
    ("pcreate a-file-whose-name-is-longer-than-32 7.0.1", 2, "a-file-whose-name-is-lon..", NAME),
    ("pdelete 7 a", 2, "7", PURSE),
    ("pdelete 7.16 a", 2, "7.16", PURSE),
    ("plist everyone", 2, "everyone", RANGE),
    ("plist 7 before 1 a", 3, "before", AFTER),
    ("plist 7 after 16 a", 4, "16", NUMBER),
    ("plist 7 after 1", 5, None, NAME),
    ("plist 7 after 1 a 9", 6, "9", AT),
    ("pmount 7.0 a at 1d", 5, "1d", MOMENT),
    ("flush 5", 3, None, MOMENT),
    ("flusho 7.0.1 5 now", 4, "now", MOMENT),
    ("setwindow 1d", 2, "1d", TICKS),
    ("setbudget 7.0 4294967296", 3, "4294967296", BUDGET),
    ("audit 7 all", 3, "all", SKIP),
    ("write 7.0.1 0 000102030405060708090a0b0c0d0e0f0", 4, "", BYTES),
)

# Further lines of a script whose first line is `window 5`, which are told whole.
LINES = {
    b"": EMPTY,
    b" 5 7 create 0": f"word 1: {SPACE}",
    b"5  7 create 0": f"word 2: {SPACE}",
    b"5 7 create 0 ": f"word 5: {SPACE}",
    b"5 7 create 0\r": f"word 4 '0': {RETURN}",
    b"\r": f"word 1: {RETURN}",
    b"5 7 create \xff": f"word 4 '?': {NO_TEXT}",
    b"# a comment": f"word 1 '#': {BEGINS}",
    b"window 5": f"word 1 'window': {BEGINS}",
    b"5": f"word 2 is missing: {CALLER}",
    b"5 7": f"word 3 is missing: {VERB}",
    b"18446744073709551616 7 create 0": f"word 1 '18446744073709551616': {BEGINS}",
    b"5 4294967295 create 0": f"word 2 '4294967295': {CALLER}",
    b"5 7/1 create 0": f"word 2 '7/1': {CALLER}",
    b"5 7/3 create 0": f"word 2 '7/3': {CALLER}",
    b"used 1": f"word 2 '1': {ENDS}",
    b"cut": f"word 2 is missing: {MOMENT}",
    b"cut now": f"word 2 'now': {MOMENT}",
    b"sweep all": f"word 2 'all': {MOST}",
}

# First lines of scripts, and of arrivals.
OPENINGS = {
    b"": EMPTY,
    b"windows 5": f"word 1 'windows': {OPENS}",
    b"5 7 create 0": f"word 1 '5': {OPENS}",
    b"window": f"word 2 is missing: {TICKS}",
    b"window 1d": f"word 2 '1d': {TICKS}",
    b"window 5\r": f"word 2 '5': {RETURN}",
    b"window 5 wires 2": f"word 3 'wires': {WIRE}",
    b"window 5 wire": f"word 4 is missing: {SECOND}",
    b"window 5 wire 1": f"word 4 '1': {SECOND}",
    b"window 5 wire 2 2": f"word 5 '2': {ENDS}",
}
WINDOWS = {b"window 5 wire 2": f"word 3 'wire': {ENDS}", b"window -5": f"word 2 '-5': {TICKS}"}

# Further lines of arrivals.
ARRIVALS = {
    b"": EMPTY,
    b"now 1 00": f"word 1 'now': {ARRIVES}",
    b"5 one 00": f"word 2 'one': {CONNECTION}",
    b"5 4294967296 00": f"word 2 '4294967296': {CONNECTION}",
    b"5 1": f"word 3 is missing: {BYTES}",
    b"5 1 0": f"word 3 '0': {BYTES}",
    b"5 1 00 00": f"word 4 '00': {ENDS}",
    b"5 1 00\r": f"word 3 '00': {RETURN}",
    b"sweep": f"word 2 is missing: {MOST}",
    b"used": f"word 1 'used': {ARRIVES}",
}

# Lines of a setup, beside those of requests.
SETUPS = {
    b"": EMPTY,
    b"7": f"word 2 is missing: {VERB}",
    b"seven create 0": f"word 1 'seven': {PRINCIPAL}",
    b"7/2 create 0": f"word 1 '7/2': {PRINCIPAL}",
    b"1 7 create 0": f"word 2 '7': {VERB}",
    b"7 create 0 ": f"word 4: {SPACE}",
    b"7 create 0\r": f"word 3 '0': {RETURN}",
}

# Lines of logins. No word of them is told, since it may be a secret.
SECRET = "000102030405060708090a0b0c0d0e0f"
LOGINS = {
    b"": "it is empty",
    b"\r": "a carriage return stands at its end",
    b"# a comment": "there are no comments",
    b"seven " + SECRET.encode(): PRINCIPAL,
    b"07 " + SECRET.encode(): PRINCIPAL,
    b"4294967295 " + SECRET.encode(): PRINCIPAL,
    b"9:" + SECRET.encode(): PRINCIPAL,
    SECRET.encode() + b" 9": PRINCIPAL,
    b"9": "a space and a secret belong behind the principal",
    b"9  " + SECRET.encode(): "one space stands between principal and secret, and no other",
    b"9 " + SECRET.encode() + b" ": "one space stands between principal and secret, and no other",
    b"9 " + SECRET.encode() + b"\r": "a carriage return stands at its end",
    b"9 " + SECRET[:-1].encode(): "a secret has 32 digits",
    b"9 " + SECRET.encode() + b"0": "a secret has 32 digits",
    b"9 " + SECRET[:-1].encode() + b"g": "the digits of a secret are hexadecimal",
}


def cause(number, word, wanted):
    """What is told of the word of this number; None: it is missing."""
    if word is None:
        return f"word {number} is missing: {wanted}"
    return f"word {number} '{word}': {wanted}" if word else f"word {number}: {wanted}"
