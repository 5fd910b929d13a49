"""The texts of the help."""

HELP = """\
A drive that keeps what was written, and answers each principal by its rights

Usage: s4d <COMMAND>

Commands:
  run      Runs a script from standard input, and writes the replies
  hall     Runs arrivals from standard input, and writes what each connection is sent
  strike   Writes a script from standard input without what a principal's strangers ask
  check    Tells which lines of files aren't taken, and why
  serve    Serves a drive over TCP, and writes where it listens
  call     Asks a served drive once, and writes the reply
  history  Tells of the journals in a folder
  help     Print this message or the help of the given subcommand(s)

Options:
  -h, --help     Print help
  -V, --version  Print version

Example: s4d run < examples/intrusion.script
docs/TUTORIAL.md tells that example step by step; docs/SCRIPTS.md says what each line asks and is answered.
"""

RUN_HELP = """\
Runs a script from standard input, and writes the replies

Usage: s4d run [OPTIONS] < SCRIPT (the script goes to standard input)

Options:
      --why   Tells the cause of a fault too, in a second line
  -h, --help  Print help

The script is read to its end before its first line is run.

Example: s4d run < examples/first.script
docs/SCRIPTS.md says what each line asks and is answered.
"""

HALL_HELP = """\
Runs arrivals from standard input, and writes what each connection is sent

Usage: s4d hall [OPTIONS] <LOGINS> < ARRIVALS (the arrivals go to standard input)

Arguments:
  <LOGINS>  A file of the principals that may log in, each with its secret

Options:
      --why   Tells the cause of a fault too, in a second line
  -h, --help  Print help

Example: s4d hall examples/first.logins < examples/first.arrivals
docs/SCRIPTS.md has the lines of both files under "Arrivals"; docs/PROTOCOL.md has the bytes.
"""

STRIKE_HELP = """\
Writes a script from standard input without what a principal's strangers ask

Usage: s4d strike [OPTIONS] <WHO> < SCRIPT (the script goes to standard input)

Arguments:
  <WHO>  The principal, a number from 1 to 4294967294

Options:
      --why   Tells the cause of a fault too, in a second line
  -h, --help  Print help

The principal is replied the same by the whole script and by what is written.

Example: s4d strike 8 < examples/intrusion.script | s4d run
docs/TUTORIAL.md tells that example; docs/SCRIPTS.md says which lines stay.
"""

CHECK_HELP = """\
Tells which lines of files aren't taken, and why

Usage: s4d check [OPTIONS] <FILE>...

Arguments:
  <FILE>...  A script, arrivals, logins or a setup; its lines tell which

Options:
      --as <KIND>  What the files are: script, arrivals, logins or setup
  -h, --help       Print help

Example: s4d check examples/first.script examples/first.logins
docs/SCRIPTS.md says what each line may be, and what is told of one that isn't.
"""

SERVE_HELP = """\
Serves a drive over TCP, and writes where it listens

Usage: s4d serve [OPTIONS] <ADDRESS> <LOGINS>

Arguments:
  <ADDRESS>  Where it listens, a host and a port
  <LOGINS>   A file of the principals that may log in, each with its secret

Options:
      --window <TIME>         The detection window at the start [default: 86400000]
      --cells <N>             How many cells there are, from 1 to 16 [default: 4]
      --workers <N>           How many threads serve connections, from 1 to 8 [default: 4]
      --connections <N>       After how many connections it ends, or 0 for never [default: 0]
      --idle <TIME>           How long a peer may be silent, or 0 for ever [default: 60000]
      --hello <TIME>          How long a peer may take up to its welcome, or 0 for ever [default: 10000]
      --open <N>              How many connections may be open [default: 1024]
      --open-each <N>         How many of them may come from one address, or 0 for any [default: 0]
      --first-moment <N>      The moment at the start, in milliseconds, or now for the time then [default: 0]
      --reload <TIME>         After how long it looks again at LOGINS, or 0 for never [default: 0]
      --cut                   It drops the records that no reply needs any more
      --records <N>           How many bytes of records the requests of a principal may leave that aren't dropped yet; else half of the memory that is there, by the principals of LOGINS, as far as the system tells
      --until <FILE>          It ends once there is this file
      --setup <FILE>          It carries out the lines of this file before it listens
      --status <FILE>         It tells of itself in this file each second, as JSON
      --journal <FOLDER>      It keeps its history in this folder
      --sync <WHEN>           When the system writes the journal to where it lasts: second or never; else second
      --sums <FILE>           It adds a line to this file each minute that tells how far the journal is
      --proxy-from <ADDRESS>  A connection from this IP address begins with a line of the PROXY protocol, version 1, that names its peer
      --status-text <FILE>    It tells of itself in this file too, as text for Prometheus
      --log-times             Its lines on standard error begin with the time
      --check                 It looks at its files, its setup and the journal's lock, and serves nothing
  -h, --help                  Print help

A TIME is a number of milliseconds, or one with a unit behind it: ms, s, m, h or d, as 7d.

Example: s4d serve 127.0.0.1:4710 examples/first.logins
docs/OPERATIONS.md says what it writes, what it holds in memory, and what ends it.
"""

CALL_HELP = """\
Asks a served drive once, and writes the reply

Usage: s4d call [OPTIONS] <ADDRESS> <WHO> <CLIENT> [SECRET] [WORD]...

Arguments:
  <ADDRESS>  Where the drive is served, a host and a port
  <WHO>      The principal that asks, a number from 0 to 4294967294
  <CLIENT>   The client that is recorded, a number from 0 to 4294967295
  [SECRET]   The principal's secret, 32 hexadecimal digits, or @ and a file that has them
  [WORD]...  The request, as in a line of a script from its verb on; @ and a file for what it has; or -

Options:
      --wire <VERSION>   The version of the wire that it speaks, 1 or 2 [default: 1]
      --wait <TIME>      For how long it is tried to connect again [default: 0]
      --depth <N>        How many requests of lines may be ahead of their replies, from 1 to 1024; else 1
      --logins <LOGINS>  Lines name their principals, whose secrets are in this file
  -h, --help             Print help

A TIME is a number of milliseconds, or one with a unit behind it: ms, s, m, h or d, as 90s.

With - in place of WORD.. the lines of standard input are requests, and each reply is a line:
s4d call <ADDRESS> <WHO> <CLIENT> <SECRET> - asks all as WHO
s4d call <ADDRESS> <CLIENT> --logins <LOGINS> - asks each as its principal: WHO WORD.. => REPLY

Example: s4d call 127.0.0.1:4710 7 1 000102030405060708090a0b0c0d0e0f read 7.0.1 0 100 at 9
docs/SCRIPTS.md has the words and the replies; "Calls" there says what else is told.
"""

HISTORY_HELP = """\
Tells of the journals in a folder

Usage: s4d history [OPTIONS] <TELLING> <FOLDER>

Arguments:
  <TELLING>  What is told: list, script or check
  <FOLDER>   The folder of the journals

Options:
      --start <N>        The number of the start, or all; else the newest, or all for check
      --from <TIME>      The first moment of which is told, or a time in UTC as 2026-11-29T10:03
      --to <TIME>        The last moment of which is told, or a time in UTC
      --sum <HEX>        A last sum that check has to find, as was told before
      --sums <FILE>      Sums that check has to find, lines START BYTES HEX as serve adds them; may be given again
      --json             The list has lines of JSON, with connections and peers
      --csv              The list has lines of CSV, with the same
      --follow           The list goes on while the start does, and its records have no numbers
      --who <WHO>        The list has what this principal asked
      --client <N>       The list has what was asked as this client
      --connection <N>   The list has what came by the connection of this number
      --peer <ADDRESS>   The list has what came from this address, or from its port as 127.0.0.1:4710
      --object <OBJECT>  The list has what is about this object as 7.0.1, purse as 7.0, or principal's range as 7
      --verb <VERB>      The list has requests of this verb, as read
      --refused          The list has what was refused
      --changes          The list has what changed something
      --reads            The list has what only asked, refused or not
  -h, --help             Print help

Example: s4d history list journal --peer 127.0.0.1 --object 7.0.1
docs/JOURNAL.md says what each tells, and what the sums find.
"""
