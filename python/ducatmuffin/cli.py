"""The command `ducat`: its arguments and help texts. Each command has its own module, which is imported only when it is used."""
import os
import sys

from . import __version__, files, signals
from .output import Failed, Out, OutputFailed, flush_error, head, paint_of, say, text_of

COMMANDS = ("check", "bind", "report", "rescue", "write", "table", "dump", "book", "figures", "rule", "diff", "build")

USAGE = """usage: ducat COMMAND [OPTION...] ...
       ducat COMMAND --help

Checks Starlark scripts and their node tables with a proved library.

  ducat check PATH...                          check table files, scripts and folders
  ducat bind FILE...                           which argument of a call reaches which parameter of a def
  ducat report PATH... -o OUT                  write an HTML page with all errors and a drawing of each call
  ducat rescue IN -o OUT                       recover the intact statements of a damaged table file
  ducat write TABLE NAMES [--dialect D [--edition N]] -o OUT
                                               a table file from raw bytes
  ducat table INPUT... -o OUT                  a table file from scripts, or from the text form of a table
  ducat table SCRIPT... --compare FILE         whether a table file is the table of scripts
  ducat dump FILE                              the text form of a table file
  ducat book COMMAND ...                       dialects by zone and setting: lookup, add, remove, list, show, new
  ducat figures [PATH...]                      counts over table files: nodes, lists, calls, errors
  ducat rule NUMBER                            what a number means, its rule, and an example
  ducat diff OLD.json NEW.json                 the errors that only one of two runs has
  ducat build [--unproved]                     prove and compile the library

  --version     print the version, and which library is used
  -h, --help    print this

The first command proves and compiles the library, which takes some minutes and needs the Rattle kit (rt).
Exit status: 0 no errors; 1 errors; 2 an input is refused or cannot be read, wrong usage, no library, or output that cannot be written. With
several inputs it is the highest of theirs. INT, TERM and HUP end the command in the usual way."""

CHECK = """Checks each PATH: a table file, a script, or a folder, which is searched for *.table and scripts. `-` is
standard input.

A script is a file whose name ends in .star, .bzl, .sky, .bazel or .BUILD, or is BUILD, BUCK or WORKSPACE, or
matches a GLOB of --as-script. Any other file is a table file. Hidden folders and links to folders are
skipped.

Every check runs on every node that it applies to, so `errors 0` means that all of them accept: parameter lists
(10 to 19), call arguments (20 to 24), targets and assignments (30 to 33), types (40 to 45), the module pass (50
to 61) and, for scripts, f-strings (62). Types are read by the edition of the table file, or edition 1 if it has
none; for scripts by --edition. Edition 2 does not give 44. Not covered: whether a name is defined, what a value
is, which def a call reaches (see `ducat bind`) and what load names; in a table file also the targets of
comprehensions and f-strings, which a table does not mark. No option and no comment switches a rule off.
`ducat rule NUMBER` explains a number.

For a table file this prints
  nodes N                  the number of nodes
  number file begin end    for each error its number, its source file number, and its place in that script, in
                           bytes from 0
  errors N                 the number of errors
or, for a file that is damaged or whose table is not sound, the one line
  refused K                and the reason on standard error
Errors are sorted by file, begin, end and number. For a script an error is PATH:LINE:COLUMN: NUMBER and its
words, with the line and carets. A script that is not Starlark has the one error PATH:LINE:COLUMN: syntax: and
the reason. With several inputs the name of each comes first, and a line of totals last.

With --join all scripts are one table: the statements of the first, then those of the second, and so on. Their
source file numbers count from 1 in the order given."""

AGAINST = """With --against DIALECT each input is checked in its own dialect and in DIALECT, and this prints what the move from
one to the other does to the errors of the module pass (10 to 19 and 50 to 61):
  opens SWITCH...             the switches that DIALECT permits and the input's own dialect does not, or nothing
  an error in a line          each error that the move takes out, in the usual form
  taken out N, left M         the number of these, and the number of errors of the module pass in DIALECT
and then the errors of the other jobs in DIALECT, with `other errors N`. Where top-level statements open and there were
errors, no theorem relates the two lists, and both totals are printed instead of the errors. Where DIALECT does not
permit all that the input's own dialect does, the one line is
  no opening, closes SWITCH...
The exit status is that of DIALECT: 0 it has no error; 1 it has errors; 2 also where the move is not an opening."""

CHECK_MORE = """No more than 59,905 bytes of a table file are read, one more than the largest has, and no more than 16,777,216
of a script. A script's table is made by ducat's own parser; that step is not proved. A script of more than
2,100 nodes or 8,064 name bytes is checked in several tables, cut between top-level statements; `nodes N, in M
tables` says so.

Exit status: 0 no errors; 1 errors; 2 an input is refused or cannot be read, a top-level statement is larger
than a table may be, nothing is found in a PATH, wrong usage, no library, or output that cannot be written. With
several inputs it is the highest of theirs."""

BIND = """Reports which argument of each call reaches which parameter. FILE is a table file or a script; `-` is standard
input.

For a script, for scripts that are joined with --join, or for a table file with --script, each call of a name is
paired with every def of that name in the scripts:
  NAME, MODE: ARGUMENT (PLACE)                    the argument that a parameter takes
  NAME, MODE: default                             it takes none, and has a default
  *NAME, MODE: ARGUMENT (PLACE); ...              what a star parameter collects, or none
  refused K, ARGUMENT (PLACE)                     the call does not fit the def, or one of them is wrong
A namesake is an argument that has the name of an ordinary parameter, or a field of that name, and reaches another
one. Two arguments are exchanged if each has the name of the parameter that the other reaches:
  namesake: X (PLACE) reaches P, though there is a parameter X
  exchanged: X (PLACE) reaches Y, and Y (PLACE) reaches X
With --strict the status is then 1, unless an expectation states it.

For a table file without --script the defs and calls are listed with their nodes; --call and --def select one of
each. A call of a call, such as outer(1)(2), and a method call are listed as such and not bound.

Which argument reaches which parameter is proved. Which call is paired with which def is not: they are paired by
name alone, even if the name means another function at the call."""

BIND_MORE = """With --expect DEF.PARAMETER=NAME every call of DEF must pass NAME, a name or a path as zone.tracks, to PARAMETER. Each
input is judged separately; --join judges several scripts as one. Calls whose callee is the name DEF are judged.
This prints
  expect DEF.PARAMETER=NAME: met by N calls
  expect DEF.PARAMETER=NAME: not met              and below it each reason with its place
It is not met if a call passes something else or is refused or not judged; DEF is defined twice or never, or
is never called, or has no such PARAMETER; DEF is used other than as a callee; a parameter, a target or a load
binds or renames DEF; a method of the name DEF is called; or the input is refused, cannot be read or is not
Starlark. A table file needs --script: a table has no names of defs.

A script that is larger than a table may be is bound too: a call and a def in a table of their two top-level
statements. A pair that exceeds a limit of a table is listed as not judged.

Exit status: 0 every call is accepted; 1 a call or def is refused (10 to 84), a script is not Starlark, an
expectation is not met, or with --strict there is a namesake that no expectation states; 2 a file is refused or
cannot be read, a node is not a Call or not a Def (6), a pair is not judged, the script is not the table's, wrong
usage, no library, or output that cannot be written."""

REPORT = """Writes to OUT one HTML page about each PATH (a table file, a script or a folder, as for `ducat check`). The page has
no JavaScript and loads nothing:
  refused tables, with the reasons
  expectations, where there are any (see `ducat bind --help`)
  the figures of their tables (see `ducat figures --help`), and the number of inputs of each dialect
  with --books which dialect each zone has at each setting
  each script's text with its errors marked, and each call drawn with lines from its arguments to the parameters
  that they reach; exchanged ones have another colour and pattern
and prints the totals of `ducat check` and
  written N     the number of bytes of the page"""

REPORT_MORE = """Exit status: 0 no errors; 1 errors, a call is refused, an expectation is not met, or with --strict there is a namesake
that no expectation states; 2 an input is refused or cannot be read, nothing is found in a PATH, a pair is not
judged, wrong usage, no library, or OUT cannot be written. Where the books give no dialect for --zone and --setting the
status is that of `ducat book lookup`, and OUT is as it was."""

RESCUE = """Writes to OUT a sound table file with the statements that can be recovered from the damaged table file IN (`-` is
standard input), and prints
  statements S    the number of statements that are kept: the first ones of the outermost list, or 1 for a table of one statement
  nodes N         the number of nodes that are kept
  dropped D       the number of nodes that the header of IN counts and that are lost
  bytes B         the number of bytes after the last block that the header counts
or, if nothing can be kept, the one line
  refused 90      the first block, or one with names, is damaged
  refused 91      no statement is intact
and leaves OUT unchanged. A sound file is written unchanged, without the bytes after it. IN may be OUT."""

RESCUE_MORE = """Exit status: 0 nothing is lost (dropped 0 and bytes 0); 1 something is lost; 2 it is refused, IN cannot be
read or OUT not written, wrong usage, or no library."""

ATOMIC = """OUT is replaced at once: it is never a part of the new file. The name of a script is refused as OUT."""

WRITE = """Writes to OUT the table file of a node table (24 bytes for each node) and its name bytes, and prints
  written N     the number of bytes of the file
or, if they are not sound, the one line
  refused K     1 to 5
and leaves OUT unchanged. TABLE and NAMES are files of raw bytes; one of them may be `-`, standard input."""

TABLE = """Writes to OUT the table file of INPUT: a script, or the text form of a table, as `ducat dump` prints it and
docs/FORMAT.md describes it. `-` is standard input: a text, or with --stdin-filename a script. A script is
read by ducat's own parser; that step is not proved.

Several scripts are joined: the statements of the first, then those of the second, and so on, become one table.
Each statement has the source file number of its script, which counts from 1, or from --number, in the order
given, and positions in that script. A script or a join of more than 2,100 nodes or 8,064 name bytes has no table:
its size is reported, and nothing is written.

With --compare FILE nothing is written. This prints
  same N                          FILE is the table of the scripts: N nodes
  differs, node N: ...            the first record that differs, and the fields in which it does
  differs, nodes N and M          one of them has more nodes
  differs, dialect D and E        all records are equal
  differs, edition N and M        all records and the dialect are equal
Equal names may have their bytes at other places in FILE. The dialect is compared where --dialect or a
configuration gives one, the edition where --edition does.

Exit status: 0 OUT is written, or FILE is the same; 1 a script is not Starlark, or FILE differs; 2 an INPUT or
FILE is refused or cannot be read, a script is larger than a table may be, OUT cannot be written, or wrong usage."""

DUMP = """Prints the text form of a table file, or of a script's table. `ducat table` of it gives the same bytes back.
`-` is standard input."""

BOOK = """usage: ducat book COMMAND ...
       ducat book COMMAND --help

Dialects by zone and setting, in a zone book and a line book.

  ducat book lookup ZONEBOOK LINEBOOK ZONE SETTING         print the nine digits of a zone's dialect
  ducat book add ZONEBOOK LINEBOOK ZONE SETTING DIALECT    add an entry to its book, in place
  ducat book remove ZONEBOOK LINEBOOK ZONE SETTING         remove an entry from its book, in place
  ducat book list BOOK                                     print the entries of a book
  ducat book show ZONEBOOK LINEBOOK                        print which book answers, by zone and setting
  ducat book new BLOCKS -o BOOK                            make an empty book

Exit status: 0; 1 for 97 and 98; 2 otherwise."""

FIGURES = """Counts over table files that are joined into one input, in the order given. PATH is a table file, or a folder, which is
searched for *.table as `ducat check` does; `-`, or no PATH, is standard input. Bytes after a file's last block begin the next
file, even if it continues in the next PATH. This prints
  files N              the number of table files
  nodes N              of nodes
  lists N              of parameter lists, each Def and each Lambda
  mode 1 N             to mode 5 N, of parameters by mode (PosOnly, PosOrName, NameOnly, Args, Kwargs) in accepted lists
  calls accepted N     of calls whose arguments are accepted
  calls refused N      of calls whose arguments are refused (20 to 24)
  error 10 N           to error 19 N, and error 50 N to error 61 N, of errors of the module pass by number
and, where a file is refused, the last line
  refused K POSITION   its number (76, 70 to 74, 3 to 5), and the position of its first byte in the input
Such a file ends the report: the files before it are counted, and nothing of it or after it.

With --add each PATH is a report that `ducat figures --json` printed, and this prints their sum, as of one input. Only the
last of them may have ended with a refusal."""

FIGURES_MORE = """An input of any length is read in the same memory. If a file cannot be read, the reason is printed and no report.

Exit status: 0 the report is complete; 2 a refusal ended it, something cannot be read or written, nothing is found in a
folder, wrong usage, or no library. Errors in the tables do not change it."""

RULE = """Prints what NUMBER means, its rule, the line of the crate's file that the rule comes from, which jobs give it, and an
example that gives it: a script or, where no script does, a table in text form. NUMBER may also be a name, such as
NO_DEFAULT_AFTER_DEFAULT. docs/RULES.md has all numbers."""

DIFF = """Compares the JSON of two runs of `ducat check`, or of `ducat bind` (--json; docs/JSON.md). `-` is standard input. This
prints
  new: PATH:LINE:COLUMN: NUMBER and its words     an error that only NEW has
  gone: ...                                       an error that only OLD has
  new N, gone N, same N                           the number of each, and of those that both have
An error is the same if its input, its number, its source file number and its bytes are the same. One that has
moved in its script is gone from its old place and new at the other. An input that is refused, is not read or has
no table counts as an error.

Exit status: 0 nothing is new; 1 something is; 2 one of them cannot be read or is not the JSON of a whole run, they
are not two of the same command with the same options, or wrong usage."""

BUILD = """Proves and compiles the library, if it is not current. Every command of a checkout does this when needed; an
installed ducat never does."""


def make_parser(command, description, epilog=None):
    import argparse

    class Parser(argparse.ArgumentParser):
        def error(self, message):
            raise Failed(f"{message} (`{self.prog} --help` says how)")

        def _print_message(self, message, file=None):
            if message:
                out = Out()
                out.write(message.encode("utf-8", "surrogateescape"))
                out.flush()

    return Parser(prog=f"ducat {command}", description=description, epilog=epilog, allow_abbrev=False,
                  formatter_class=argparse.RawDescriptionHelpFormatter)


def parse(parser, words):
    """Options may come before, between and after the names; a word after -- is always a name."""
    cut = words.index("--") if "--" in words else len(words)
    names = words[cut + 1:]
    options = parser.parse_intermixed_args(words[:cut] + [f"\0{at}" for at in range(len(names))])
    for key, value in vars(options).items():
        if isinstance(value, list):
            setattr(options, key, [restored(one, names) for one in value])
        else:
            setattr(options, key, restored(value, names))
    return options


def restored(value, names):
    """The name that is hidden from argparse: no word of a command line has a NUL."""
    return names[int(value[1:])] if isinstance(value, str) and value.startswith("\0") else value


def add_format(parser, more=()):
    parser.add_argument("--format", choices=("text", "json", *more), default="text", help="what is printed (docs/JSON.md describes the JSON"
                        + ("; gcc: a line of an error; github: a workflow command; sarif: SARIF 2.1.0)" if more else ")"))
    parser.add_argument("--json", dest="format", action="store_const", const="json", help="short for --format json")


OTHERS = ("gcc", "github", "sarif")  # the formats of check and bind besides text and JSON


def add_color(parser):
    parser.add_argument("--color", choices=("auto", "always", "never"), default="auto",
                        help="colours in text: auto (the default) has them on a terminal, unless NO_COLOR is set")


def machine(format_):
    """Whether the JSON of a run is made, to print it or for another format."""
    return format_ != "text"


def add_output(parser, required=True):
    parser.add_argument("-o", "--output", dest="out", metavar="OUT", required=required, help="the file that is written")


def add_dialect(parser, whose):
    parser.add_argument("--dialect", metavar="D", help=f"the dialect {whose}: standard, extended, all, none (then Extended is meant) or nine digits")


def add_edition(parser, words):
    parser.add_argument("--edition", metavar="N", type=edition, help=f"the edition of the type rules {words}: 1, or 2, which allows a path that ends in "
                        "`.type` (44)")


def add_config(parser):
    parser.add_argument("--config", metavar="FILE", help="the configuration, in place of ducat.ini in the current folder")


def add_stdin_filename(parser):
    parser.add_argument("--stdin-filename", metavar="NAME", help="the name of standard input; a script's name makes it a script")


def add_as_script(parser):
    parser.add_argument("--as-script", metavar="GLOB", action="append", default=[],
                        help="treat a file whose name or path matches as a script; may be repeated")


def add_script(parser, words):
    parser.add_argument("--script", metavar="[N=]SCRIPT", action="append", default=[],
                        help=f"{words}; with N= that of source file number N, once for each number")


def add_join(parser):
    parser.add_argument("--join", action="store_true", help="treat the scripts as one table, numbered from 1 in the order given")


def add_list(parser):
    parser.add_argument("--files-from", metavar="FILE", help="read names of inputs from FILE (`-` is standard input), one in a line")
    parser.add_argument("-0", "--null", action="store_true", help="the names of --files-from end with NUL, not with a newline")


def add_books(parser, shown=""):
    from .book import SETTING, ZONE
    parser.add_argument("--books", metavar=("ZONEBOOK", "LINEBOOK"), nargs=2,
                        help=f"{shown}check scripts, and table files without a dialect, in the dialect that these books give for --zone and --setting")
    parser.add_argument("--zone", metavar="Z", type=ZONE, help="the zone, for --books")
    parser.add_argument("--setting", metavar="S", type=SETTING, help="the setting, for --books")


def check_parser():
    parser = make_parser("check", CHECK, f"{AGAINST}\n\n{CHECK_MORE}")
    parser.add_argument("paths", metavar="PATH", nargs="*")
    parser.add_argument("--module", action="store_true",
                        help="run the module pass alone (10 to 19 and 50 to 61) and keep its order")
    parser.add_argument("--explain", action="store_true", help="print what each number means, with nodes, kinds, dialect and places in X.star "
                        "beside X.table; of a table with several source file numbers in X.N.star for each number N")
    parser.add_argument("--quiet", action="store_true", help="print nothing: the exit status is the answer; reasons why an input is not read are still printed")
    parser.add_argument("--bad-only", action="store_true", help="print only inputs that have errors, are refused or cannot be read")
    add_join(parser)
    add_script(parser, "the script of the table files, for lines and columns")
    add_dialect(parser, "of scripts; a table file has its own")
    add_edition(parser, "for scripts (default: 1); a table file has its own")
    parser.add_argument("--against", metavar="DIALECT", help="report which errors a move to DIALECT removes; DIALECT must permit all that the input's own "
                        "dialect does, and is a name or nine digits as for --dialect")
    add_books(parser)
    parser.add_argument("--exclude", metavar="GLOB", action="append", default=[],
                        help="skip files found in a folder whose name or path matches; may be repeated")
    add_as_script(parser)
    add_list(parser)
    add_stdin_filename(parser)
    parser.add_argument("--jobs", metavar="N", type=positive, default=1, help="use N processes; the output is the same")
    add_config(parser)
    add_format(parser, OTHERS)
    add_color(parser)
    return parser


def positive(text):
    import argparse
    if not (text.isascii() and text.isdigit()) or not 1 <= int(text[:6]) <= 1024:
        raise argparse.ArgumentTypeError("a number from 1 to 1024 is needed")
    return int(text)


def edition(text):
    import argparse
    from .table import EDITIONS
    if text not in map(str, EDITIONS):
        raise argparse.ArgumentTypeError("an edition is 1 or 2")
    return int(text)


def file_number(text):
    import argparse
    from .table import LAST_FILE
    if not (text.isascii() and text.isdigit()) or not 1 <= int(text[:6]) <= LAST_FILE:
        raise argparse.ArgumentTypeError(f"a source file number is 1 to {LAST_FILE}")
    return int(text)


def node(text):
    import argparse
    if not (text.isascii() and text.isdigit()):
        raise argparse.ArgumentTypeError("a node is a number")
    return int(text) if len(text) < 21 else 2 ** 64 - 1


def bind_parser():
    parser = make_parser("bind", BIND, BIND_MORE)
    parser.add_argument("files", metavar="FILE", nargs="*")
    parser.add_argument("--call", metavar="N", type=node, help="the node of a Call of one table file; with --def")
    parser.add_argument("--def", dest="def_", metavar="N", type=node, help="the node of a Def of one table file; with --call")
    add_join(parser)
    add_script(parser, "the script of one table file: names of defs, texts, lines and columns")
    add_expect(parser)
    parser.add_argument("--explain", action="store_true", help="print what each number means")
    add_dialect(parser, "of scripts; a table file has its own")
    add_as_script(parser)
    add_list(parser)
    add_stdin_filename(parser)
    add_config(parser)
    add_format(parser, OTHERS)
    add_color(parser)
    return parser


def add_expect(parser):
    parser.add_argument("--expect", metavar="DEF.PARAMETER=NAME", action="append", default=[],
                        help="every call of DEF must pass NAME to PARAMETER; may be repeated")
    parser.add_argument("--expectations", metavar="FILE", help="read expectations from FILE (`-` is standard input), one in a line; # begins a comment")
    parser.add_argument("--strict", action="store_true",
                        help="exit with 1 if an argument has the name of a parameter and reaches another one, unless an expectation states it")


def report_parser():
    parser = make_parser("report", REPORT, f"{ATOMIC}\n\n{REPORT_MORE}")
    parser.add_argument("paths", metavar="PATH", nargs="*")
    add_output(parser)
    add_join(parser)
    add_script(parser, "the script of the table files")
    add_expect(parser)
    add_dialect(parser, "of scripts; a table file has its own")
    add_edition(parser, "for scripts (default: 1); a table file has its own")
    add_books(parser, "show which dialect each zone has at each setting; with --zone and --setting also ")
    parser.add_argument("--exclude", metavar="GLOB", action="append", default=[],
                        help="skip files found in a folder whose name or path matches; may be repeated")
    add_as_script(parser)
    add_list(parser)
    add_stdin_filename(parser)
    add_config(parser)
    add_format(parser)
    return parser


def rescue_parser():
    parser = make_parser("rescue", RESCUE, f"{ATOMIC}\n\n{RESCUE_MORE}")
    parser.add_argument("input", metavar="IN")
    add_output(parser)
    parser.add_argument("--explain", action="store_true", help="print what each number means, and which statements are kept and lost")
    add_script(parser, "the script of the table: names and lines of statements, with --explain and in JSON")
    add_format(parser)
    return parser


def write_parser():
    parser = make_parser("write", WRITE, ATOMIC)
    parser.add_argument("table", metavar="TABLE")
    parser.add_argument("names", metavar="NAMES")
    add_dialect(parser, "that the file has; without it the file has none")
    add_edition(parser, "that the file has, which needs a dialect; without it the file has none, and edition 1 applies")
    add_output(parser)
    add_format(parser)
    return parser


def table_parser():
    parser = make_parser("table", TABLE, ATOMIC)
    parser.add_argument("inputs", metavar="INPUT", nargs="+")
    add_output(parser, required=False)
    parser.add_argument("--compare", metavar="FILE", help="write nothing: report whether the table file FILE is the table of the scripts")
    parser.add_argument("--number", metavar="N", type=file_number, help="the source file number of the first script; the others follow (default: 1)")
    parser.add_argument("--parts", action="store_true",
                        help="OUT is a folder, new or empty: a table file of each top-level statement, 0001.table and so on")
    add_dialect(parser, "of a script; a text has its own")
    add_edition(parser, "that the file of a script has, which needs a dialect; a text has its own")
    add_as_script(parser)
    add_stdin_filename(parser)
    add_config(parser)
    add_format(parser)
    return parser


def dump_parser():
    parser = make_parser("dump", DUMP)
    parser.add_argument("input", metavar="FILE")
    add_output(parser, required=False)
    add_dialect(parser, "of a script; a table file has its own")
    add_as_script(parser)
    add_stdin_filename(parser)
    add_config(parser)
    add_format(parser)
    return parser


def figures_parser():
    parser = make_parser("figures", FIGURES, FIGURES_MORE)
    parser.add_argument("paths", metavar="PATH", nargs="*")
    parser.add_argument("--explain", action="store_true", help="print what each count and each number means, and which PATH a refused file is in")
    parser.add_argument("--jobs", metavar="N", type=positive, default=1, help="use N processes; the output is the same")
    parser.add_argument("--add", action="store_true", help="add reports that --json printed")
    parser.add_argument("--format", choices=("text", "json", "csv"), default="text",
                        help="what is printed (docs/JSON.md describes the JSON; csv: a line of names and a line of numbers)")
    parser.add_argument("--json", dest="format", action="store_const", const="json", help="short for --format json")
    return parser


def rule_parser():
    parser = make_parser("rule", RULE)
    parser.add_argument("number", metavar="NUMBER")
    add_format(parser)
    return parser


def diff_parser():
    parser = make_parser("diff", DIFF)
    parser.add_argument("old", metavar="OLD.json")
    parser.add_argument("new", metavar="NEW.json")
    add_format(parser)
    return parser


def build_parser():
    parser = make_parser("build", BUILD)
    parser.add_argument("--unproved", action="store_true",
                        help="compile in half a minute without a proof, into target/unproved; every command then reports that its library is not proved")
    add_format(parser)
    return parser


# ---- what the words mean

def open_library():
    """The library that the commands use, built if necessary."""
    from . import build, library
    try:
        found = library.load(build.ensure(sys.stderr))
    except (build.BuildError, library.LibraryError) as error:
        raise Failed(str(error)) from None
    if not found.proved:
        say(f"this library is not proved: {found.path}; `ducat build` makes the proved one")
    return found


def dialect_word(word, option="--dialect"):
    from . import dialects
    try:
        return dialects.of(word)
    except ValueError as error:
        raise Failed(f"{option}: {error}") from None


class Configured:
    """The dialect of scripts by the command line or the configuration, and the message about the configuration."""

    def __init__(self, options):
        from . import config
        self.configuration = config.load(options.config)
        word = options.dialect
        self.given = word is not None
        if word is None and self.configuration:
            word = self.configuration.dialect
        self.dialect = dialect_word(word) if word is not None else None
        self.as_script = [*options.as_script, *(self.configuration.as_script if self.configuration else ())]
        self.excluded = 0

    @property
    def name(self):
        from . import dialects
        return dialects.name_of(self.dialect) if self.dialect else dialects.MEANT

    def say(self):
        from . import config
        if self.configuration:
            say(config.told(self.configuration, self.name, self.excluded))

    def in_json(self):
        from . import config
        return config.in_json(self.configuration, self.name, self.excluded)


def scripts_named(words, wanted=True):
    """The scripts that --script names; read only if they are needed."""
    if not words:
        return None
    from . import scripts
    found = scripts.parsed(words)
    return scripts.read(found) if wanted else None


def numbered(many, first=1):
    """The source file numbers of scripts end at 999."""
    from .table import LAST_FILE
    if first + many - 1 > LAST_FILE:
        raise Failed(f"source file numbers end at {LAST_FILE}, and the last of {many} scripts from {first} on would be {first + many - 1}")


def joined(options, found):
    """The inputs of a run with --join as one."""
    from . import inputs
    if options.script:
        raise Failed("--script is for table files, not for scripts that are joined")
    for one in found:
        if not one.script:
            raise Failed(f"--join is for scripts, and {one.name} is {'a folder' if os.path.isdir(one.path or '') else 'taken as a table file'}")
    numbered(len(found))
    return [inputs.Joined(found)]


def once(*names):
    """Standard input can be read once."""
    if sum(name == "-" for name in names) > 1:
        raise Failed("standard input (`-`) is named twice")


def input_of(name, stdin_filename=None, as_script=()):
    from . import inputs
    return inputs.standard_input(stdin_filename, as_script) if name == "-" else inputs.Input(name, as_script=as_script)


def found_in(options, configured, paths, folders=True):
    """The inputs that the command line names, those of folders and lists among them."""
    from . import inputs
    once(*paths, *([options.files_from] if options.files_from is not None else []))
    if options.null and options.files_from is None:
        raise Failed("-0 is for --files-from")
    exclude = list(getattr(options, "exclude", []))
    if configured.configuration:
        exclude += configured.configuration.exclude
    search = inputs.Search(exclude, options.stdin_filename, configured.as_script)
    for path in paths:
        search.name(path) if folders else search.found.append(input_of(path, options.stdin_filename, configured.as_script))
    if options.files_from is not None:
        for name in inputs.names_in(options.files_from, options.null):
            search.listed(name) if folders else search.found.append(inputs.Input(name, as_script=configured.as_script))
    configured.excluded = search.excluded
    return search


def check(words, out):
    options = parse(check_parser(), words)
    if not options.paths and options.files_from is None:
        raise Failed("no PATH is given (`ducat check --help` says how)")
    if options.against is not None:
        if options.module:
            raise Failed("--against runs the module pass and the other jobs: it cannot be used with --module")
        options.against = dialect_word(options.against, "--against") or b""
    books_fit(options)
    configured = Configured(options)
    search = found_in(options, configured, options.paths, folders=not options.join)
    if options.join and search.found:
        search.found = joined(options, search.found)
    if configured.given and options.files_from is None and not any(could_be_script(path, options.stdin_filename, configured.as_script) for path in options.paths):
        raise Failed("--dialect is for scripts: a table file has its own dialect")
    edition_fits(options, configured)
    if options.script and any(one.script for one in search.found):
        raise Failed("--script is for table files, not for scripts")
    scripts = scripts_named(options.script, not options.quiet)
    library = open_library()
    json, books = machine(options.format), {}
    if options.books:
        from . import book
        given = book.ForCheck(library, options)
        configured.dialect, books = given.dialect, {"books": given.in_json()}
        if given.refusal:
            return given.refused(options, out, head("check", library, module=options.module, **books) if json else None)
    configured.say()
    for path, excluded in search.empty:
        say(f"{path}: no table file and no script is found in this folder" + (f"; {excluded:,} excluded" if excluded else ""))
    from . import check as job
    many = len(search.found) > 1 or bool(search.empty) or any(one.path not in options.paths for one in search.found if one.path is not None)
    how = job.Options(options.module, options.explain and not json, options.quiet, options.bad_only, json, many, configured.dialect, scripts,
                      options.format, paint_of(options.color, out.terminal), options.edition)
    how.by_books = bool(options.books)
    if options.against is not None:
        from . import against
        status = against.run(library, how, options.against, search.found, options.jobs, out,
                             against.front(library, configured.in_json(), options.against) if json else None)
    else:
        front = head("check", library, configured.in_json(), module=options.module, **books) if json else None
        status = job.run(library, how, search.found, options.jobs, out, front)
    return max(status, 2 if search.empty else 0)


def edition_fits(options, configured):
    """--edition is for scripts, and for the jobs that read types."""
    if options.edition is None:
        return
    if getattr(options, "module", False):
        raise Failed("--edition is for types, which the module pass does not read: it cannot be used with --module")
    if options.files_from is None and not any(could_be_script(path, options.stdin_filename, configured.as_script) for path in options.paths):
        raise Failed("--edition is for scripts: a table file has its own edition")


def needs_dialect(edition, dialect):
    """Only a file with a dialect has an edition."""
    if edition is not None and not dialect:
        raise Failed("--edition needs a dialect: a file without a dialect has no edition (--dialect gives one)")


def books_fit(options, alone=False):
    """--books, --zone and --setting go together, and give the dialect. `alone` permits books without the other two."""
    given = [options.books is not None, options.zone is not None, options.setting is not None]
    if any(given) and not all(given) and not (alone and given == [True, False, False]):
        raise Failed("--books, --zone and --setting go together")
    if all(given) and (options.dialect is not None or getattr(options, "against", None) is not None):
        raise Failed("--books gives the dialect: it cannot be used with --dialect or --against")
    if options.books:
        once(*options.books, *options.paths, *([options.files_from] if options.files_from is not None else []))


def could_be_script(path, stdin_filename, as_script):
    from . import inputs
    if path == "-":
        return inputs.is_script(stdin_filename or "-", as_script)
    return inputs.is_script(path, as_script) or os.path.isdir(path)


def bind(words, out):
    options = parse(bind_parser(), words)
    if not options.files and options.files_from is None:
        raise Failed("no FILE is given (`ducat bind --help` says how)")
    if (options.call is None) != (options.def_ is None):
        raise Failed("--call and --def go together")
    configured = Configured(options)
    expectations = expected(options, configured, options.files)
    found = found_in(options, configured, options.files, folders=False).found
    if options.join and found:
        found = joined(options, found)
    if expectations and options.call is not None:
        raise Failed("an expectation names a def: it cannot be used with --call and --def")
    if expectations and not options.script:
        for one in found:
            if not one.script:
                raise Failed(f"an expectation needs --script for the table file {one.name}: a table has no names of defs")
    single = "--call and --def" if options.call is not None else "--script" if options.script else None
    if single and (len(found) != 1 or found[0].script):
        raise Failed(f"{single} {'need' if options.call is not None else 'needs'} one table file")
    if options.call is not None and options.script:
        raise Failed("--script pairs calls and defs: it cannot be used with --call and --def")
    if configured.given and found and not any(one.script for one in found):
        raise Failed("--dialect is for scripts: a table file has its own dialect")
    scripts = scripts_named(options.script)
    library = open_library()
    configured.say()
    from . import bind as job
    json = machine(options.format)
    how = job.Options(found, options.explain, json, configured.dialect, scripts, options.call, options.def_, options.format,
                      paint_of(options.color, out.terminal), expectations, options.strict)
    return job.run(library, how, out, head("bind", library, configured.in_json()) if json else None)


def report(words, out):
    options = parse(report_parser(), words)
    if not options.paths and options.files_from is None:
        raise Failed("no PATH is given (`ducat report --help` says how)")
    books_fit(options, alone=True)
    configured = Configured(options)
    edition_fits(options, configured)
    named_out(options.out, configured.as_script)
    expectations = expected(options, configured, options.paths)
    search = found_in(options, configured, options.paths, folders=not options.join)
    if options.join and search.found:
        search.found = joined(options, search.found)
    if options.script and any(one.script for one in search.found):
        raise Failed("--script is for table files, not for scripts")
    taken = [part.path for one in search.found for part in getattr(one, "scripts", [one])] + (options.books or [])
    if any(is_same(options.out, path) for path in taken):
        raise Failed(f"-o {options.out}: it is an input, and the page would overwrite it")
    scripts, library = scripts_named(options.script), open_library()
    if options.zone is not None:
        from . import book
        given = book.ForCheck(library, options)
        if given.refusal:
            options.quiet = True
            return given.refused(options, out, None)
        configured.dialect = given.dialect
    configured.say()
    for path, excluded in search.empty:
        say(f"{path}: no table file and no script is found in this folder" + (f"; {excluded:,} excluded" if excluded else ""))
    from . import report as job
    how = job.Options(options.out, configured.dialect, scripts, options.books, options.zone, expectations, options.strict, options.edition)
    status = job.run(library, how, search.found, out, head("report", library, configured.in_json()) if options.format == "json" else None)
    return max(status, 2 if search.empty else 0)


def is_same(out, path):
    """Whether a file that is to be written is one that is read."""
    try:
        return path is not None and os.path.samefile(out, path)
    except OSError:
        return False


def expected(options, configured, paths):
    """The expectations of the command line and of the configuration."""
    from .expect import gathered
    if options.expectations is not None:
        once(options.expectations, *paths, *([options.files_from] if options.files_from is not None else []))
    return gathered(options.expect, options.expectations, configured.configuration)


def finished(options, **more):
    """The options of a command on one input."""
    options.json = options.format == "json"
    for key, value in more.items():
        setattr(options, key, value)
    return options


def rescue(words, out):
    options = parse(rescue_parser(), words)
    named_out(options.out)
    from . import rescue as job
    finished(options, input=input_of(options.input), scripts=scripts_named(options.script))
    library = open_library()
    return job.run(library, options, out, head("rescue", library) if options.json else None)


def write(words, out):
    options = parse(write_parser(), words)
    named_out(options.out)
    once(options.table, options.names)
    from . import write as job
    finished(options, table=input_of(options.table), names=input_of(options.names),
             dialect=dialect_word(options.dialect) if options.dialect is not None else None)
    needs_dialect(options.edition, options.dialect)
    library = open_library()
    return job.run(library, options, out, head("write", library) if options.json else None)


def named_out(name, as_script=()):
    from . import inputs
    if name in ("", "-"):
        raise Failed("-o needs the name of a file")
    if inputs.is_script(name, as_script):
        raise Failed(f"-o {name}: this is a script's name, and nothing is written over a script")


def one_input(options, words_for_table):
    """A command on a script or on something that has its own dialect."""
    configured = Configured(options)
    one = input_of(options.input, options.stdin_filename, configured.as_script)
    if configured.given and not one.script:
        raise Failed(f"--dialect is for scripts: {words_for_table} has its own dialect")
    finished(options, input=one, dialect=configured.dialect if one.script else None)
    return configured


def table(words, out):
    options = parse(table_parser(), words)
    if (options.out is None) == (options.compare is None):
        raise Failed("one of -o and --compare is needed (`ducat table --help` says how)")
    once(*options.inputs, *([options.compare] if options.compare is not None else []))
    configured = Configured(options)
    if options.out is not None:
        named_out(options.out, configured.as_script)
    found = [input_of(name, options.stdin_filename, configured.as_script) for name in options.inputs]
    texts = [one for one in found if not one.script]
    if texts and (configured.given or options.edition is not None or options.number is not None):
        raise Failed("--dialect is for scripts: a text has its own dialect" if configured.given else
                     "--edition is for scripts: a text has its own edition" if options.edition is not None else
                     "--number is for scripts: a text has its own source file numbers")
    needs_dialect(options.edition, configured.dialect)
    if texts and len(found) > 1:
        raise Failed(f"several INPUTs must be scripts, and {texts[0].name} is taken as the text form of a table")
    if options.compare is not None and (texts or options.parts):
        raise Failed("--compare is for scripts" if texts else "--compare is for one table: --parts makes several")
    numbered(len(found), options.number or 1)
    finished(options, inputs=found, number=options.number or 1, dialect=None if texts else configured.dialect, given=configured.given)
    from . import tabling as job
    library = open_library()
    configured.say()
    return job.run(library, options, out, head("table", library, configured.in_json()) if options.json else None)


def dump(words, out):
    options = parse(dump_parser(), words)
    configured = one_input(options, "a table file")
    if options.out is not None:
        named_out(options.out, configured.as_script)
    from . import dump as job
    library = open_library()
    configured.say()
    return job.run(library, options, out, head("dump", library, configured.in_json()) if options.json else None)


def book(words, out):
    from . import book as job
    if not words:
        raise Failed("no command of `ducat book` is given (`ducat book --help` lists them)")
    if words[0] in ("-h", "--help"):
        out.write(BOOK.encode() + b"\n")
        return 0
    if words[0] not in job.RUN:
        raise Failed(f"there is no command book {words[0]} (`ducat book --help` lists them)")
    options = parse(job.parser_of(words[0], make_parser), words[1:])
    if words[0] == "new":
        named_out(options.out)
    elif words[0] != "list":
        once(options.zone_book, options.line_book)
    if words[0] == "add":
        options.dialect = dialect_word(options.dialect, "DIALECT") or b""
    return job.RUN[words[0]](open_library(), options, out)


def figures(words, out):
    options = parse(figures_parser(), words)
    from . import figures as job
    once(*options.paths)
    if options.add:
        if not options.paths:
            raise Failed("no report is given (`ducat figures --help` says how)")
        if options.jobs > 1:
            raise Failed("--jobs cannot be used with --add")
        return job.add(options.paths, options, out, head("figures", None, added=True) if options.format == "json" else None)
    from . import inputs
    search = inputs.Search(scripts=False)
    for path in options.paths or ["-"]:
        search.name(path)
    if search.empty:
        raise Failed(f"{search.empty[0][0]}: no table file is found in this folder")
    library = open_library()
    return job.run(library, search.found, options, out, head("figures", library, added=False) if options.format == "json" else None)


def rule(words, out):
    """No library is needed for this."""
    options = parse(rule_parser(), words)
    from . import rules as job
    number = job.of(options.number)
    if options.format == "json":
        from .output import Report
        Report(out, head("rule", None)).end(rule=job.in_json(number), status=0)
    else:
        out.lines(job.lines(number))
    return 0


def diff(words, out):
    """No library is needed for this."""
    options = finished(parse(diff_parser(), words))
    once(options.old, options.new)
    from . import diff as job
    return job.run(options, out, head("diff", None) if options.json else None)


def build(words, out):
    options = parse(build_parser(), words)
    from . import build as job
    from . import library
    try:
        made = library.load(job.make(sys.stderr, proved=not options.unproved))
    except (job.BuildError, library.LibraryError) as error:
        raise Failed(str(error)) from None
    if options.format == "json":
        from .output import Report, named
        Report(out, {**head("build", made), "output": named(made.path)}).end(status=0)
    else:
        out.lines([about(made)])
    return 0


def about(library):
    """A library in a line."""
    from .output import visible
    proved = "proved" if library.proved else "NOT proved"
    return f"library {text_of(library.version)}, {proved}, SHA-256 {library.checksum}, {visible(library.path)}"


def version(out):
    """Nothing is built for this."""
    from . import library
    out.lines([f"ducat {__version__}"])
    try:
        out.lines([about(library.load())])
    except library.LibraryError as error:
        out.lines([f"no library: {error}"])
    return 0


# ---- the process

def dispatch(words, out):
    if not words:
        raise Failed("no command is named (`ducat --help` says which there are)")
    first = words[0]
    if first in COMMANDS:
        return globals()[first](words[1:], out)
    if first in ("-h", "--help", "help"):
        out.write(USAGE.encode() + b"\n")
        return 0
    if first == "--version":
        return version(out)
    what = "option" if first.startswith("-") else "command"
    raise Failed(f"there is no {what} {first} (`ducat --help` says which there are)")


def guard_descriptors():
    """A closed descriptor would be given to the next file that is opened. Closed standard input still cannot be read."""
    for descriptor, mode in ((2, os.O_WRONLY), (0, os.O_WRONLY), (1, None)):
        try:
            os.fstat(descriptor)
        except OSError:
            if mode is None:
                raise Failed("standard output is closed") from None
            put = os.open(os.devnull, mode)
            if put != descriptor:
                os.dup2(put, descriptor)
                os.close(put)


def ended(words, out):
    """Runs a command, and returns its exit status."""
    try:
        guard_descriptors()
        status = dispatch(words, out)
        out.flush()
        return status
    except Failed as error:
        out.flush()
        say(str(error))
        return error.status
    except SystemExit as error:
        out.flush()
        return error.code or 0


def main(words=None):
    signals.install()
    out = Out()
    try:
        return ended(sys.argv[1:] if words is None else words, out)
    except OutputFailed as error:
        if not error.quiet:
            say(f"standard output cannot be written: {error}")
    except signals.Stopped as stopped:
        files.tidy()
        signals.die(stopped.number)
    except Exception:  # status 1 would say that errors were found
        import traceback
        say("a fault of ducat itself: " + traceback.format_exc().strip().replace("\n", " | "))
    finally:
        files.tidy()
        flush_error()
    return 2
