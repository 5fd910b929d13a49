"""Command lines that spell no command: their words, with a `|` between each two, and what is told of them. Each begins with the program's name."""

from tests.causes import BYTES, ENDS, NUMBER, VERB, cause

# A call of principal 7 as client 1, behind which its request stands.
CALL = "call|nowhere|7|1|000102030405060708090a0b0c0d0e0f"
# What is told where lines' depth or their callers are spelled by no words.
NO_DEPTH = "invalid value for '--depth <N>': it isn't a number from 1 to 1024"
NO_COMPANY = "with '--logins' the words behind <ADDRESS> are <CLIENT> and '-'"
# What is told where a call's WHO, CLIENT or SECRET is spelled by no word.
NO_WHO = "invalid value for '<WHO>': it isn't a number from 0 to 4294967294"
NO_CLIENT = "invalid value for '<CLIENT>': it isn't a number from 0 to 4294967295"
NO_SECRET = "invalid value for '<SECRET>': it isn't 32 hexadecimal digits"

# What is told where the flags of a history are spelled by no word.
ANY_NUMBER = "a number from 0 to 18446744073709551615"
NO_TIME = f"it isn't {ANY_NUMBER}, or a time as 2026-11-29T10:03"
NO_PEER = "invalid value for '--peer <ADDRESS>': it isn't an IP address, or one with a port as 127.0.0.1:4710"
NO_OBJECT = "invalid value for '--object <OBJECT>': it isn't an object as 7.0.1, a purse as 7.0, or a principal as 7"
NO_FOLLOW = "the argument '--follow' cannot be used with '--to' or '--start all'"
NO_CHANGES = "the argument '--changes' cannot be used with '--refused' or '--reads'"


def no_time(flag):
    """What is told where the word behind a flag is no time."""
    return f"invalid value for '--{flag} <TIME>': it isn't a number of milliseconds up to 18446744073709551615, or one with ms, s, m, h or d behind it"


# What is told where the word of the moment at a server's start is none.
NO_MOMENT = "invalid value for '--first-moment <N>': it isn't now, or a number from 0 to 9223372036854775807"

# Words that are too few or too many, or that nothing is named by.
WORDS = {
    "": "'s4d' requires a subcommand but one was not provided\n  [subcommands: run, hall, strike, check, serve, call, history, help]\n\nUsage: s4d <COMMAND>",
    "walk": "unrecognized subcommand 'walk'\n\nUsage: s4d <COMMAND>",
    "run|first.script": "unexpected argument 'first.script' found\n\nUsage: s4d run [OPTIONS] < SCRIPT (the script goes to standard input)",
    "run|--window": "unexpected argument '--window' found\n\nUsage: s4d run [OPTIONS] < SCRIPT (the script goes to standard input)",
    "run|--version": "unexpected argument '--version' found\n\nUsage: s4d run [OPTIONS] < SCRIPT (the script goes to standard input)",
    "hall": "the following required arguments were not provided:\n  <LOGINS>\n\nUsage: s4d hall [OPTIONS] <LOGINS> < ARRIVALS (the arrivals go to standard input)",
    "hall|first.logins|first.arrivals": "unexpected argument 'first.arrivals' found\n\nUsage: s4d hall [OPTIONS] <LOGINS> < ARRIVALS (the arrivals go to standard input)",
    "hall|--window": "unexpected argument '--window' found\n\n  tip: to pass '--window' as a value, use '-- --window'\n\nUsage: s4d hall [OPTIONS] <LOGINS> < ARRIVALS (the arrivals go to standard input)",
    "strike": "the following required arguments were not provided:\n  <WHO>\n\nUsage: s4d strike [OPTIONS] <WHO> < SCRIPT (the script goes to standard input)",
    "strike|9|first.script": "unexpected argument 'first.script' found\n\nUsage: s4d strike [OPTIONS] <WHO> < SCRIPT (the script goes to standard input)",
    "check": "the following required arguments were not provided:\n  <FILE>...\n\nUsage: s4d check <FILE>...",
    CALL: "the following required arguments were not provided:\n  <WORD>...\n\nUsage: s4d call <ADDRESS> <WHO> <CLIENT> <SECRET> <WORD>...",
}

# The administrator, numbers that no principal has, and words that are no number of a script.
PRINCIPALS = {
    "strike|0": "invalid value '0' for '<WHO>': it isn't a number from 1 to 4294967294",
    "strike|4294967295": "invalid value '4294967295' for '<WHO>': it isn't a number from 1 to 4294967294",
    "strike|18446744073709551616": "invalid value '18446744073709551616' for '<WHO>': it isn't a number from 1 to 4294967294",
    "strike|": "invalid value '' for '<WHO>': it isn't a number from 1 to 4294967294",
    "strike|07": "invalid value '07' for '<WHO>': it isn't a number from 1 to 4294967294",
    "strike|+7": "invalid value '+7' for '<WHO>': it isn't a number from 1 to 4294967294",
    "strike|7.0": "invalid value '7.0' for '<WHO>': it isn't a number from 1 to 4294967294",
    "strike|seven": "invalid value 'seven' for '<WHO>': it isn't a number from 1 to 4294967294",
}

# What is told where a kind of files is spelled by no word.
NO_KIND = "for '--as <KIND>': it isn't script, arrivals, logins or setup"

# Flags that are out of their bounds, or no number.
FLAGS = {
    "check|first.script|--as|scripts": f"invalid value 'scripts' {NO_KIND}",
    "check|first.script|--as|": f"invalid value '' {NO_KIND}",
    "history|tell|kept": "invalid value 'tell' for '<TELLING>': it isn't list, script or check",
    "history|list|kept|--start|one": f"invalid value for '--start <N>': it isn't {ANY_NUMBER}, or all",
    "history|list|kept|--start|All": f"invalid value for '--start <N>': it isn't {ANY_NUMBER}, or all",
    "history|script|kept|--start|all": "a script is of one start, and '--start all' names all",
    "history|check|kept|--json": "the argument '--json' cannot be used but with 'list'",
    "history|script|kept|--csv": "the argument '--csv' cannot be used but with 'list'",
    "history|script|kept|--follow": "the argument '--follow' cannot be used but with 'list'",
    "history|check|kept|--follow": "the argument '--follow' cannot be used but with 'list'",
    "history|list|kept|--follow|--to|7": NO_FOLLOW,
    "history|list|kept|--start|all|--follow": NO_FOLLOW,
    "history|list|kept|--csv|--json": "the argument '--csv' cannot be used with '--json'",
    "history|script|kept|--who|7": "the argument '--who' cannot be used but with 'list'",
    "history|check|kept|--client|7": "the argument '--client' cannot be used but with 'list'",
    "history|check|kept|--connection|7": "the argument '--connection' cannot be used but with 'list'",
    "history|script|kept|--peer|127.0.0.1": "the argument '--peer' cannot be used but with 'list'",
    "history|script|kept|--object|7.0.1": "the argument '--object' cannot be used but with 'list'",
    "history|script|kept|--verb|read": "the argument '--verb' cannot be used but with 'list'",
    "history|script|kept|--refused": "the argument '--refused' cannot be used but with 'list'",
    "history|check|kept|--changes": "the argument '--changes' cannot be used but with 'list'",
    "history|check|kept|--reads": "the argument '--reads' cannot be used but with 'list'",
    "history|check|kept|--from|7": "the argument '--from' cannot be used but with 'list' and 'script'",
    "history|check|kept|--to|7": "the argument '--to' cannot be used but with 'list' and 'script'",
    "history|list|kept|--who|4294967295": "invalid value for '--who <WHO>': it isn't a number from 0 to 4294967294",
    "history|list|kept|--who|everyone": "invalid value for '--who <WHO>': it isn't a number from 0 to 4294967294",
    "history|list|kept|--client|4294967296": "invalid value for '--client <N>': it isn't a number from 0 to 4294967295",
    "history|list|kept|--client|07": "invalid value for '--client <N>': it isn't a number from 0 to 4294967295",
    "history|list|kept|--connection|0": "invalid value for '--connection <N>': it isn't a number from 1 to 18446744073709551615",
    "history|list|kept|--connection|18446744073709551616": "invalid value for '--connection <N>': it isn't a number from 1 to 18446744073709551615",
    "history|list|kept|--peer|localhost": NO_PEER,
    "history|list|kept|--peer|127.0.0.256": NO_PEER,
    "history|list|kept|--peer|127.0.0.1:65536": NO_PEER,
    "history|list|kept|--peer|": NO_PEER,
    "history|list|kept|--object|7.": NO_OBJECT,
    "history|list|kept|--object|7.16": NO_OBJECT,
    "history|list|kept|--object|7.0.0": NO_OBJECT,
    "history|list|kept|--object|7.0.65536": NO_OBJECT,
    "history|list|kept|--object|7.0.1.2": NO_OBJECT,
    "history|list|kept|--object|4294967295": NO_OBJECT,
    "history|list|kept|--object|9.+": NO_OBJECT,
    "history|list|kept|--verb|steal": "invalid value for '--verb <VERB>': it isn't a request's verb, as read",
    "history|list|kept|--verb|Read": "invalid value for '--verb <VERB>': it isn't a request's verb, as read",
    "history|list|kept|--changes|--refused": NO_CHANGES,
    "history|list|kept|--changes|--reads": NO_CHANGES,
    "history|list|kept|--from|10:03": f"invalid value for '--from <TIME>': {NO_TIME}",
    "history|list|kept|--from|2026-11-31T10:03": f"invalid value for '--from <TIME>': {NO_TIME}",
    "history|list|kept|--from|2026-02-29T10:03": f"invalid value for '--from <TIME>': {NO_TIME}",
    "history|list|kept|--from|1969-12-31T23:59": f"invalid value for '--from <TIME>': {NO_TIME}",
    "history|list|kept|--to|2026-11-29T24:00": f"invalid value for '--to <TIME>': {NO_TIME}",
    "history|list|kept|--to|2026-11-29T10:60": f"invalid value for '--to <TIME>': {NO_TIME}",
    "history|list|kept|--to|2026-11-29T10:03:60": f"invalid value for '--to <TIME>': {NO_TIME}",
    "history|list|kept|--to|2026-11-29T10:03:27.1": f"invalid value for '--to <TIME>': {NO_TIME}",
    "history|list|kept|--to|2026-11-29T10:3": f"invalid value for '--to <TIME>': {NO_TIME}",
    "history|list|kept|--to|2026-11-29 10:03": f"invalid value for '--to <TIME>': {NO_TIME}",
    "history|list|kept|--to|18446744073709551616": f"invalid value for '--to <TIME>': {NO_TIME}",
    "history|check|kept|--sum|00": "invalid value for '--sum <HEX>': it isn't 64 hexadecimal digits",
    "serve|nowhere|first.logins|--cells|0": "invalid value for '--cells <N>': it isn't a number from 1 to 16",
    "serve|nowhere|first.logins|--cells|17": "invalid value for '--cells <N>': it isn't a number from 1 to 16",
    "serve|nowhere|first.logins|--workers|9": "invalid value for '--workers <N>': it isn't a number from 1 to 8",
    "serve|nowhere|first.logins|--workers|04": "invalid value for '--workers <N>': it isn't a number from 1 to 8",
    "serve|nowhere|first.logins|--window|18446744073709551616": no_time("window"),
    "serve|nowhere|first.logins|--connections|4294967296": "invalid value for '--connections <N>': it isn't a number from 0 to 4294967295",
    "serve|nowhere|first.logins|--connections|two": "invalid value for '--connections <N>': it isn't a number from 0 to 4294967295",
    "serve|nowhere|first.logins|--idle|60.0": no_time("idle"),
    "serve|nowhere|first.logins|--first-moment|9223372036854775808": NO_MOMENT,
    "serve|nowhere|first.logins|--first-moment|+1": NO_MOMENT,
    "serve|nowhere|first.logins|--first-moment|": NO_MOMENT,
    "serve|nowhere|first.logins|--first-moment|Now": NO_MOMENT,
    "serve|nowhere|first.logins|--first-moment|now ": NO_MOMENT,
    "serve|nowhere|first.logins|--first-moment|7d": NO_MOMENT,
    "serve|nowhere|first.logins|--until|": "invalid value for '--until <FILE>': it is no path",
    "serve|nowhere|first.logins|--hello|s": no_time("hello"),
    "serve|nowhere|first.logins|--hello|1 s": no_time("hello"),
    "serve|nowhere|first.logins|--hello|1sec": no_time("hello"),
    "serve|nowhere|first.logins|--hello|1S": no_time("hello"),
    "serve|nowhere|first.logins|--hello|1m30s": no_time("hello"),
    "serve|nowhere|first.logins|--hello|+1s": no_time("hello"),
    "serve|nowhere|first.logins|--hello|01s": no_time("hello"),
    "serve|nowhere|first.logins|--hello|": no_time("hello"),
    "serve|nowhere|first.logins|--idle|1us": no_time("idle"),
    "serve|nowhere|first.logins|--idle|1w": no_time("idle"),
    "serve|nowhere|first.logins|--window|213503982335d": no_time("window"),
    "serve|nowhere|first.logins|--window|18446744073709552s": no_time("window"),
    "serve|nowhere|first.logins|--window|18446744073709551616ms": no_time("window"),
    "serve|nowhere|first.logins|--reload|s1": no_time("reload"),
    "serve|nowhere|first.logins|--reload|1.5s": no_time("reload"),
    "serve|nowhere|first.logins|--reload|1.5": no_time("reload"),
    "serve|nowhere|first.logins|--setup|": "invalid value for '--setup <FILE>': it is no path",
    "serve|nowhere|first.logins|--status|": "invalid value for '--status <FILE>': it is no path",
    "serve|nowhere|first.logins|--journal|": "invalid value for '--journal <FOLDER>': it is no path",
    "serve|nowhere|first.logins|--sync|often": "invalid value 'often' for '--sync <WHEN>': it isn't second or never",
    "serve|nowhere|first.logins|--journal|kept|--sums|": "invalid value for '--sums <FILE>': it is no path",
    "serve|nowhere|first.logins|--sums|sums": "'--sums' is given, and no '--journal'",
    "serve|nowhere|first.logins|--sync|never": "'--sync' is given, and no '--journal'",
    "serve|nowhere|first.logins|--sync|second": "'--sync' is given, and no '--journal'",
    "history|list|kept|--from|10|--to|5": "'--from <TIME>' is greater than '--to <TIME>'",
    "history|list|kept|--from|2026-11-29T10:04|--to|2026-11-29T10:03": "'--from <TIME>' is greater than '--to <TIME>'",
    "history|list|kept|--sum|" + "00" * 32: "the argument '--sum' cannot be used but with 'check'",
    "history|list|kept|--json|--sum|" + "00" * 32: "the argument '--sum' cannot be used but with 'check'",
    "history|script|kept|--sum|" + "00" * 32: "the argument '--sum' cannot be used but with 'check'",
    "history|list|kept|--sums|kept.sums": "the argument '--sums' cannot be used but with 'check'",
    "history|script|kept|--sums|kept.sums|--sums|other.sums": "the argument '--sums' cannot be used but with 'check'",
    "history|check|kept|--sums|": "invalid value for '--sums <FILE>': it is no path",
    "history|check|kept|--sums|kept.sums|--sums|": "invalid value for '--sums <FILE>': it is no path",
    "serve|nowhere|first.logins|--open|0": "invalid value for '--open <N>': it isn't a number from 1 to 4294967295",
    "serve|nowhere|first.logins|--records|0": "invalid value for '--records <N>': it isn't a number from 1 to 18446744073709551615",
    "serve|nowhere|first.logins|--records|18446744073709551616": "invalid value for '--records <N>': it isn't a number from 1 to 18446744073709551615",
    "serve|nowhere|first.logins|--records|1e9": "invalid value for '--records <N>': it isn't a number from 1 to 18446744073709551615",
    "serve|nowhere|first.logins|--proxy-from|": "invalid value for '--proxy-from <ADDRESS>': it is no IP address",
    "serve|nowhere|first.logins|--proxy-from|localhost": "invalid value for '--proxy-from <ADDRESS>': it is no IP address",
    "serve|nowhere|first.logins|--proxy-from|127.0.0.1:4710": "invalid value for '--proxy-from <ADDRESS>': it is no IP address",
    "serve|nowhere|first.logins|--proxy-from|127.0.0.256": "invalid value for '--proxy-from <ADDRESS>': it is no IP address",
    "serve|nowhere|first.logins|--proxy-from|10.0.0.0/8": "invalid value for '--proxy-from <ADDRESS>': it is no IP address",
    "serve|nowhere|first.logins|--proxy-from|[::1]": "invalid value for '--proxy-from <ADDRESS>': it is no IP address",
    "serve|nowhere|first.logins|--status-text|": "invalid value for '--status-text <FILE>': it is no path",
    "serve|nowhere|first.logins|--status|told|--status-text|told": "'--status' and '--status-text' name one file",
    "serve|nowhere|first.logins|--open-each|4294967296": "invalid value for '--open-each <N>': it isn't a number from 0 to 4294967295",
}

# Flags without a value, and a call's wait or version that is out of its bounds or no number.
VALUES = {
    "check|first.script|--as": "a value is required for '--as <KIND>' but none was supplied",
    "history|list|kept|--who": "a value is required for '--who <WHO>' but none was supplied",
    "history|list|kept|--peer": "a value is required for '--peer <ADDRESS>' but none was supplied",
    "history|list|kept|--from": "a value is required for '--from <TIME>' but none was supplied",
    "serve|nowhere|first.logins|--cells": "a value is required for '--cells <N>' but none was supplied",
    "serve|nowhere|first.logins|--first-moment": "a value is required for '--first-moment <N>' but none was supplied",
    "serve|nowhere|first.logins|--records": "a value is required for '--records <N>' but none was supplied",
    "serve|nowhere|first.logins|--until": "a value is required for '--until <FILE>' but none was supplied",
    "serve|nowhere|first.logins|--setup": "a value is required for '--setup <FILE>' but none was supplied",
    "serve|nowhere|first.logins|--proxy-from": "a value is required for '--proxy-from <ADDRESS>' but none was supplied",
    "serve|nowhere|first.logins|--status-text": "a value is required for '--status-text <FILE>' but none was supplied",
    "history|check|kept|--sums": "a value is required for '--sums <FILE>' but none was supplied",
    "serve|nowhere|first.logins|--journal|kept|--sums": "a value is required for '--sums <FILE>' but none was supplied",
    "serve|nowhere|first.logins|--status": "a value is required for '--status <FILE>' but none was supplied",
    f"{CALL}|create|0|--wait": "a value is required for '--wait <TIME>' but none was supplied",
    "call|--wait|18446744073709551616|nowhere|7|1|000102030405060708090a0b0c0d0e0f|create|0": no_time("wait"),
    "call|--wait|1x|nowhere|7|1|000102030405060708090a0b0c0d0e0f|create|0": no_time("wait"),
    f"{CALL}|create|0|--wire": "a value is required for '--wire <VERSION>' but none was supplied",
    "call|--wire|3|nowhere|7|1|000102030405060708090a0b0c0d0e0f|create|0": "invalid value '3' for '--wire <VERSION>': it isn't 1 or 2",
    "call|--wire|01|nowhere|7|1|000102030405060708090a0b0c0d0e0f|create|0": "invalid value '01' for '--wire <VERSION>': it isn't 1 or 2",
    f"{CALL}|-|--depth|0": NO_DEPTH,
    f"{CALL}|-|--depth|1025": NO_DEPTH,
    f"{CALL}|-|--depth|01": NO_DEPTH,
    f"{CALL}|-|--depth|": NO_DEPTH,
    f"{CALL}|create|0|--depth|2": "the argument '--depth' cannot be used but with '-' in place of a request",
    "call|nowhere|1|--logins|first.logins|--depth|2|-": "the argument '--depth' cannot be used with '--logins'",
    "call|nowhere|1|--logins|first.logins|create": NO_COMPANY,
    f"{CALL}|-|--logins|first.logins": NO_COMPANY,
    "call|nowhere|4294967296|--logins|first.logins|-": NO_CLIENT,
}

# Calls of nobody.
CALLERS = {
    "call|nowhere|4294967295|1|000102030405060708090a0b0c0d0e0f|create|0": NO_WHO,
    "call|nowhere|07|1|000102030405060708090a0b0c0d0e0f|create|0": NO_WHO,
    "call|nowhere||1|000102030405060708090a0b0c0d0e0f|create|0": NO_WHO,
    "call|nowhere|+7|1|000102030405060708090a0b0c0d0e0f|create|0": NO_WHO,
    "call|nowhere|7.0|1|000102030405060708090a0b0c0d0e0f|create|0": NO_WHO,
    "call|nowhere|7|4294967296|000102030405060708090a0b0c0d0e0f|create|0": NO_CLIENT,
    "call|nowhere|7|04294967295|000102030405060708090a0b0c0d0e0f|create|0": NO_CLIENT,
    "call|nowhere|7||000102030405060708090a0b0c0d0e0f|create|0": NO_CLIENT,
    "call|nowhere|7|+1|000102030405060708090a0b0c0d0e0f|create|0": NO_CLIENT,
    "call|nowhere|7|1||create|0": NO_SECRET,
    "call|nowhere|7|1|00|create|0": NO_SECRET,
    "call|nowhere|7|1|000102030405060708090a0b0c0d0e0|create|0": NO_SECRET,
    "call|nowhere|7|1|000102030405060708090a0b0c0d0e0g|create|0": NO_SECRET,
}

# Calls of words that are no request, and what is told of them.
REQUESTS = {
    f"{CALL}|walk": cause(1, "walk", VERB),
    f"{CALL}|create": cause(2, None, NUMBER),
    f"{CALL}|create|16": cause(2, "16", NUMBER),
    f"{CALL}|create|0|0": cause(3, "0", ENDS),
    f"{CALL}|create 0": "word 1 'create?0': each word stands by itself, and this one has a space",
    f"{CALL}|10|7|create|0": cause(1, "10", VERB),
    f"{CALL}|sweep|1": cause(1, "sweep", VERB),
    f"{CALL}|used": cause(1, "used", VERB),
    f"{CALL}|write|7.0.1|0|6": cause(4, "6", BYTES),
}

# What is told of this one alone; in the place of the last words' byte 255 stands what Python has for it.
NO_TEXT = {"hall|first\udcff.logins": "an argument isn't UTF-8"}
