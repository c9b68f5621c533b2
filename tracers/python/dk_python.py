"""dk_python: runs a Python program, and writes a trace of its functions' calls for `daikon`."""

from __future__ import annotations

import argparse
import marshal
import os
import sys
import sysconfig

HERE = os.path.dirname(os.path.abspath(__file__))
sys.path.insert(0, os.path.dirname(HERE))

import dtrace  # noqa: E402

USAGE = """dk_python [--out FILE] [--include GLOB]... [--exclude GLOB]... [--depth N] [--elements N] [--every N] [--globals] [--report]
                 (SCRIPT | -m MODULE) [ARG]..."""

DESCRIPTION = """Runs SCRIPT as `python3 SCRIPT ARG...` does, or MODULE as `python3 -m MODULE ARG...` does, and writes a trace of the calls
of its functions, for daikon: SCRIPT.dtrace (without the .py) in the current folder, or FILE. The program's standard streams, its exit status
and its behaviour are those of a run without a trace."""

DETAILS = """\
What is traced: each function, method, nested function and lambda of the files at or below the script's folder (with -m, the current folder),
but for the library's and those in site-packages; with --include, those whose name matches, wherever they lie. A name is that of the module (the
script's without .py), a dot, and the qualified name: ledger.Account.deposit, tools.outer.<locals>.inner. Generators, coroutines and asynchronous
functions are left out, and so is all that child processes do.

Points are named module.Class.method(self, x):::ENTER and :::EXITn, n being the line of the return (or of the function's last statement). An
exception that leaves a function is no exit. What always holds of an object at the entries and exits of public methods is said at
module.Class:::OBJECT, what always holds of a module's variables at module:::GLOBALS.

Variables are parameters, `return`, fields of objects whose classes are the program's own, and with --globals the module's. Whole numbers, truth
values and strings are recorded as such, floating point is passed over by daikon; lists, tuples, ranges, arrays and bytes of whole numbers, truth
values or strings are sequences x[..]; other containers are known by their identity and len(x), other objects by their identity. No code of the
program runs when its values are looked at.

The trace is written when the program ends: by itself, by an exception, by SIGINT, SIGTERM or SIGHUP; but not by SIGKILL, os._exit or os.exec*.

Exit status: the program's; 2 where these arguments are refused, and 4 where FILE can't be written to, both before the program starts.

Examples:
  dk_python --report examples/python/bounded_queue.py
  dk_python --include 'ledger.Account.*' --exclude '*.__repr__' --out account.dtrace main.py --verbose
  dk_python --every 100 -m unittest discover
"""


class Help(argparse.RawDescriptionHelpFormatter):
    """Help with the description's own lines, as wide as the terminal."""


def parser_of_arguments() -> argparse.ArgumentParser:
    """The arguments before the script."""
    parser = argparse.ArgumentParser(prog="dk_python", usage=USAGE, description=DESCRIPTION, epilog=DETAILS, formatter_class=Help,
                                     allow_abbrev=False)
    dtrace.add_arguments(parser, "SCRIPT", "module.qualname", 100)
    parser.add_argument("-m", dest="module", metavar="MODULE", help="run this module in place of a script")
    parser.add_argument("arguments", nargs=argparse.REMAINDER, metavar="SCRIPT [ARG]...", help="the script, and its own arguments")
    return parser


def split_arguments(arguments: list) -> tuple:
    """The arguments before the script or after `-m MODULE`, and those that are the program's own: the parser sees only ours."""
    with_value = {"--out", "--include", "--exclude", "--depth", "--elements", "--every"}
    place = 0
    while place < len(arguments) and arguments[place].startswith("-") and arguments[place] != "-":
        if arguments[place] == "-m":
            return arguments[:place + 2], arguments[place + 2:]
        if arguments[place].startswith("-m"):
            return arguments[:place + 1], arguments[place + 1:]
        if arguments[place] == "--":
            return arguments[:place], arguments[place + 1:]
        place += 2 if arguments[place] in with_value else 1
    return arguments[:place], arguments[place:]


def name_and_folder(script: str) -> tuple:
    """The script's name, and the folder of what is traced: that of the script, or the script itself where it is a folder."""
    path = os.path.realpath(script)
    if os.path.isdir(path):
        return os.path.basename(os.path.abspath(script)), path
    return os.path.splitext(os.path.basename(script))[0], os.path.dirname(path)


def main(arguments: list) -> None:
    """Reads the arguments, opens the files, and becomes the program."""
    parser = parser_of_arguments()
    ours, rest = split_arguments(arguments)
    known = parser.parse_args(ours)
    if known.module is None and not rest:
        parser.error("a SCRIPT or -m MODULE is needed")
    name, folder = (known.module, os.getcwd()) if known.module is not None else name_and_folder(rest[0])
    path = os.path.abspath(known.out or name + ".dtrace")
    try:
        output = dtrace.Output.open(path)
    except OSError as problem:
        print("dk_python: cannot write %s: %s" % (known.out or path, problem.strerror), file=sys.stderr)
        sys.exit(4)
    spool = dtrace.temporary()
    for descriptor in (output.descriptor, spool):
        os.set_inheritable(descriptor, True)
    settings = {
        "out": output.descriptor, "spool": spool, "file": path, "main": name, "folder": folder, "start": os.getcwd(),
        "include": known.include, "exclude": known.exclude, "depth": known.depth, "elements": known.elements, "every": known.every,
        "globals": known.globals, "report": known.report, "path": os.environ.get("PYTHONPATH"),
        "library": sorted({os.path.realpath(sysconfig.get_path(kind)) for kind in ("stdlib", "platstdlib")}),
    }
    environment = dict(os.environ)
    site = os.path.join(HERE, "site")
    environment["PYTHONPATH"] = site + os.pathsep + settings["path"] if settings["path"] else site
    environment["DK_PYTHON_SETTINGS"] = marshal.dumps(settings).hex()
    command = [sys.executable] + (["-m", known.module] if known.module is not None else []) + rest
    os.execve(sys.executable, command, environment)


if __name__ == "__main__":
    main(sys.argv[1:])
