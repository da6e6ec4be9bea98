"""Invalid command lines and requests for help, which print `usage` and change no file; and the version."""
from data.help import HELP, NAMES
from data.scripts import EXAMPLE
from suite import Begins, Case

SCRIPT = ("<SCRIPT>", "A script (docs/SCRIPTS.md)")
FRAGMENTS = ("<[NAME=]FILE>...", "Containers, files of the classic Mac OS, or any files that have containers in them: NAME names the first fragment of FILE")
NO_WEAK = ("    --no-weak", "Make no stubs of libraries that every fragment can do without")
# What each command does, and its operands, its options and its example.
COMMANDS = {
    "show": ("Prints the memory that the script on the standard input becomes", [], [], "< app.pefscript"),
    "link": ("Links a script to a container", [SCRIPT, ("<OUT>", "The file that gets the container")], [], "app.pefscript app.pef"),
    "list": ("Lists what a container declares", [("<FILE>", "A container")], [], "app.pef"),
    "check": (
        "Checks the certificates of a script's sections", [SCRIPT, ("<CERT>", "The certificates of its sections, as `distances` prints them")], [],
        "app.pefscript app.cert",
    ),
    "load": (
        "Prints the memory that containers become",
        [("<NAME=FILE>...", "Containers, each with the name of its fragment: the first is loaded, the others are its libraries")], [],
        "app=app.pef Tools=tools.pef",
    ),
    "distances": (
        "Prints certificates that no relocation program without repeats is shorter than that of `link`", [SCRIPT], [], "app.pefscript > app.cert",
    ),
    "extract": (
        "Writes a container of a file to a file of its own",
        [
            ("<FILE>", "A file of the classic Mac OS, or any file that has containers in it"),
            ("<NAME>", "The name of a fragment, or `#` and the number of a container from 0"),
            ("<OUT>", "The file that gets the container"),
        ],
        [], "Calculator.bin '#0' calculator.pef",
    ),
    "inspect": (
        "Prints everything that can be known of files, with all errors, each at its place",
        [("[FILE]...", "Files of the classic Mac OS, or any files that have containers in them: `-` is the standard input")],
        [
            ("    --json", "Print an object of JSON for each file, on a line of its own"),
            ("    --files0", "Read the paths of the files from the standard input, each ended by a zero byte"),
            ("    --resources <RESOURCES>", "The file that has the resource fork of the one FILE"),
        ],
        "Calculator.bin",
    ),
    "prepare": (
        "Prints the memory that an application and its libraries become", [FRAGMENTS],
        [
            ("    --root <NAME>", "The fragment that is prepared, if it isn't the first one of the first FILE"),
            ("    --library <FILE>", "A file whose fragments are libraries only"),
            ("-L <FOLDER>", "A folder: its files are libraries"),
            ("    --no-stubs", "Make no stubs of missing libraries: report the first that is missing"),
            NO_WEAK,
            ("    --json", "Print an object of JSON a line"),
            ("    --bytes", "With `--json`: also print the bytes of each section, in base64"),
            ("-o <FOLDER>", "With `--json`: write the bytes of each section to a file of its own in this folder"),
        ],
        "Calculator.bin",
    ),
    "stubs": (
        "Makes stubs of the libraries that fragments lack", [FRAGMENTS],
        [
            ("    --first <ADDRESS>", "The number of the first symbol, in hexadecimal: F0000000 if it isn't given"),
            ("    --step <BYTES>", "How far the numbers are from each other: 16 if it isn't given"),
            NO_WEAK,
            ("    --memory", "Give the symbols code and data of their own in place of numbers"),
            ("-o <FOLDER>", "The folder that gets the stubs"),
        ],
        "-o stubs Calculator.bin",
    ),
}
HELP_OPTION = ("-h, --help", "Print help")


def rows(title, entries):
    """Returns lines of names and what they mean."""
    width = max((len(name) for name, _ in entries), default=0)
    return "".join([f"\n{title}:\n", *(f"  {name:{width}}  {means}\n" for name, means in entries)]) if entries else ""


def help_for(command):
    """Returns the help for a command."""
    about, operands, options, example = COMMANDS[command]
    words = " ".join(["pef", command, *["[OPTIONS]"] * bool(options), *(name for name, _ in operands)])
    text = f"{about}\n\nUsage: {words}\n{rows('Arguments', operands)}{rows('Options', [*options, HELP_OPTION])}\nExample:\n  pef {command} {example}\n"
    return text.encode()


UNNAMED = b"""\
error: each file is written NAME=FILE: the name of its fragment, `=`, and its path

Usage: pef load <NAME=FILE>...

For more information, try '--help'.
"""


ALL_HELP = b"Links, lists and loads PEF containers\n"
# The help for all commands.
LISTED = [*((name, about) for name, (about, *_) in COMMANDS.items()), ("help", "Print this message or the help of the given subcommand(s)")]
WHOLE_HELP = ALL_HELP + f"\nUsage: pef <COMMAND>\n{rows('Commands', LISTED)}{rows('Options', [('    --version', 'Print version'), HELP_OPTION])}".encode()

# How each command is used.
OPERANDS = {
    b"show": b"",
    b"link": b" <SCRIPT> <OUT>",
    b"list": b" <FILE>",
    b"check": b" <SCRIPT> <CERT>",
    b"load": b" <NAME=FILE>...",
    b"extract": b" <FILE> <NAME> <OUT>",
}


def missing(command, *operands):
    """Returns the error that a command lacks operands."""
    lines = b"".join(b"  %s\n" % it for it in operands)
    usage = b"\nUsage: pef %s%s\n" % (command, OPERANDS[command])
    return Begins(b"error: the following required arguments were not provided:\n" + lines, (usage,))


def unexpected(command, word):
    """Returns the error that a command has a word too many."""
    return Begins(b"error: unexpected argument '%s' found\n" % word, (b"\nUsage: pef %s%s\n" % (command, OPERANDS[command]),))


def unknown(word, *has):
    """Returns the error that a word is no command."""
    return Begins(b"error: unrecognized subcommand '%s'\n" % word, (*has, b"\nUsage: pef <COMMAND>\n\n" + ALL_HELP))


NO_BYTES = b"""\
error: give `--bytes` or `-o FOLDER` only with `--json`, and not both

Usage: pef prepare [OPTIONS] <[NAME=]FILE>...

For more information, try '--help'.
"""
NUMBERS = Begins(b"error: ADDRESS is one to eight hexadecimal digits,", (b"\nUsage: pef stubs [OPTIONS] <[NAME=]FILE>...\n",))
NO_FRAGMENTS = Begins(b"error: the following required arguments were not provided:\n  <[NAME=]FILE>...\n")
FILES_OR_LIST = Begins(b"error: give either FILEs or `--files0`", (b"\nUsage: pef inspect [OPTIONS] [FILE]...\n",))

# Words, and what the standard error has.
USAGE = (
    ([], Begins(b"error: 'pef' requires a subcommand", (b"\n  link ",))),
    (["frob"], unknown(b"frob", b"\n  load ")),
    (["lnk", "a", "b"], unknown(b"lnk", b"'link'")),
    (["Show"], unknown(b"Show")),
    ([""], unknown(b"")),
    (["link"], missing(b"link", b"<SCRIPT>", b"<OUT>")),
    (["link", "a"], missing(b"link", b"<OUT>")),
    (["link", "a", "out", "b"], unexpected(b"link", b"b")),
    (["list"], missing(b"list", b"<FILE>")),
    (["list", "a", "b"], unexpected(b"list", b"b")),
    (["list", "-x"], Begins(b"error: unexpected argument '-x' found\n", (b"'-- -x'",))),
    (["check"], missing(b"check", b"<SCRIPT>", b"<CERT>")),
    (["check", "a"], missing(b"check", b"<CERT>")),
    (["check", "a", "b", "c"], unexpected(b"check", b"c")),
    (["extract", "a", "#0"], missing(b"extract", b"<OUT>")),
    (["extract", "a", "#0", "out", "b"], unexpected(b"extract", b"b")),
    (["show", "it"], unexpected(b"show", b"it")),
    (["show", ""], unexpected(b"show", b"")),
    (["show", "--version"], unexpected(b"show", b"--version")),
    (["load"], missing(b"load", b"<NAME=FILE>...")),
    (["load", "a"], UNNAMED),
    (["load", "user.pef"], UNNAMED),
    (["load", "=a"], UNNAMED),
    (["load", "it=a", "a"], UNNAMED),
    (["inspect", "--resources", "a.rsrc", "a", "b"], FILES_OR_LIST),
    *((words, NO_FRAGMENTS) for words in (["prepare"], ["prepare", "--json"], ["prepare", "--library", "a"], ["stubs"], ["stubs", "--memory"])),
    *((words, NO_BYTES) for words in (
        ["prepare", "--bytes", "a"], ["prepare", "a", "--bytes"], ["prepare", "-o", "d", "a"], ["prepare", "--bytes", "-o", "d", "a"], ["prepare", "--json", "a", "--bytes", "-od"],
    )),
    # more files than a preparation can have, a file between options, an option without its value or twice, and unknown ones
    *((["prepare", *words], Begins(b"error: ")) for words in (
        ["a"] * 257, ["a", "--json", "a"], ["a", "--root"], ["--root", "a", "--root", "b", "a"], ["--json", "--json", "a"], ["--first", "0", "a"], ["-x", "a"], ["--json", "a", "-o"], ["--json", "-o", "d", "-o", "e", "a"],
    )),
    *((["stubs", *words], Begins(b"error: ")) for words in (["--library", "a", "a"], ["-L", ".", "a"], ["--json", "a"], ["--root", "a", "a"], ["--first", "-1", "a"])),
    # no numbers of 32 bits, and numbers for memory
    *((["stubs", *words, "a"], NUMBERS) for words in (
        ["--first", "100000000"], ["--first", ""], ["--first=0xF0"], ["--first", "F000000G"], ["--step", "0"], ["--step", "016"], ["--step", "4294967296"], ["--step", "10h"], ["--step="],
        ["--memory", "--step", "4"], ["--first", "0", "--memory"],
    )),
    (["--version", "it"], Begins(b"error: ")),
    (["--version", "show"], Begins(b"error: `--version` is used alone\n", (b"\nUsage: pef <COMMAND>\n",))),
    (["--versions"], Begins(b"error: unexpected argument '--versions' found\n", (b"'--version'",))),
    (["-V"], Begins(b"error: unexpected argument '-V' found\n", (b"\nUsage: pef <COMMAND>\n",))),
    *(([word], WHOLE_HELP) for word in ("--help", "-h", "help")),
    *((words, help_for(command)) for command in COMMANDS for words in (["help", command], [command, "--help"])),
    *((["help", str(number)], b"%d %s\n%s" % (number, name, HELP[number])) for number, name in NAMES.items()),
    # no errors, and no numbers
    *((["help", it], Begins(b"error: unrecognized subcommand '%s'\n" % it.encode())) for it in ("100", "071", "71x", "4294967367")),
    # bytes that aren't UTF-8
    ([b"list", b"\xFF"], Begins(b"error: ")),
)

CASES = [
    Case(f"{words}", words, {"a": EXAMPLE}, EXAMPLE, stdout=b"usage\n", stderr=said, status=2)
    for words, said in USAGE
]

# The version that include/pef.h has, too.
CASES.append(Case("the version", ["--version"], {"a": EXAMPLE}, EXAMPLE, stdout=b"pef 0.1.0\n"))
# After `--` all words are operands.
CASES.append(Case("a path that begins with -", ["load", "--", "-x=-a"], linked={"./-a": EXAMPLE}, stdout=b"""\
fragment -x
section 0 at 00010000 size 16
00010000 11223344 00010008 01020000 00010000
"""))
