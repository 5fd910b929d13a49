"""Frames that peers say, and that they are sent (docs/PROTOCOL.md). Each is written out, for what spells frames is tested by them."""
from tests.peers import NOW

# Principal 7 says as client 1 who it is, with its secret and with another one; principal 8 says who it is.
HELLO = bytes.fromhex("0000001a 00 01 00000007 00000001 000102030405060708090a0b0c0d0e0f")
WRONG_HELLO = bytes.fromhex("0000001a 00 01 00000007 00000001 000102030405060708090a0b0c0d0e0e")
OTHER_HELLO = bytes.fromhex("0000001a 00 01 00000008 00000001 101112131415161718191a1b1c1d1e1f")

# A Create in purse 0, and all that a call for it says.
CREATE = bytes.fromhex("00000002 01 00")
CALL = HELLO + CREATE

# It writes `hello` to 7.0.1, and to 8.0.1; the former is cut behind its 11th byte.
WRITE = bytes.fromhex("00000014 04 00000007 00 000001 00000000 0005") + b"hello"
FOREIGN_WRITE = bytes.fromhex("00000014 04 00000008 00 000001 00000000 0005") + b"hello"
CUT_WRITE = bytes.fromhex("00000014 04 00000007 00 00")
# It writes 39 bytes to it.
SLOW_WRITE = bytes.fromhex("00000036 04 00000007 00 000001 00000000 0027") + b"more than whoever waits for it has time"
# It reads 100 bytes of 7.0.1.
READ = bytes.fromhex("00000012 03 00000007 00 000001 00000000 00000064 00")
# It reads as many of 9.0.1.
FOREIGN_READ = bytes.fromhex("00000012 03 00000009 00 000001 00000000 00000064 00")

WELCOME = bytes.fromhex("00000002 10 01")
# The object 7.0.1 was made, or 8.0.1.
MADE = bytes.fromhex("00000009 01 00000007 00 000001")
OTHER_MADE = bytes.fromhex("00000009 01 00000008 00 000001")
# What is said to a call for the first Create.
ANSWER = WELCOME + MADE
# A right to read lacks, or one to write.
DENIED = bytes.fromhex("00000003 08 01 01")
WRITE_DENIED = bytes.fromhex("00000003 08 01 02")
DONE = bytes.fromhex("00000001 00")
# `hello`, by entry 0, and the moment since which that is there.
DATA = (bytes.fromhex("00000012 02 01 00"), NOW, b"\0\5hello")

# The faults of a body that spells nothing, of a wrong secret, and of a length that no frame has.
MALFORMED = bytes.fromhex("00000002 11 01")
BAD_LOGIN = bytes.fromhex("00000002 11 02")
BAD_LENGTH = bytes.fromhex("00000002 11 03")
