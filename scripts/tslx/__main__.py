"""`tslx`: one command a file. `tslx` starts it as `python3 -B scripts/tslx COMMAND WORD..`.

Each module of a command has `HELP`, what `--help` writes, and `main(words)`, which gives the status. It may raise `Stop` and `Unreadable`."""
import os
import signal
import sys

if sys.version_info < (3, 8):
    sys.stderr.write("tslx: this python3 is older than 3.8, which tslx takes; tsl itself takes none\n")
    sys.exit(125)
sys.dont_write_bytecode = True
sys.path[0] = os.path.dirname(os.path.dirname(os.path.abspath(__file__)))

from importlib import import_module  # noqa: E402
from typing import Dict, List, Tuple  # noqa: E402

# Each command, its module, and its line of help.
COMMANDS: Dict[str, Tuple[str, str]] = {}
for _name in "synth check run prove recheck gen circuit automaton accepts".split():
    COMMANDS[_name] = ("plain", "")
COMMANDS.update({
    "search": ("search", "search [OPTION].. FILE|tries sizes that grow until there is a program, or an environment that wins"),
    "explain": ("explain", "explain [FILE]|a none text in words, and what to do next"),
    "trace": ("trace", "trace [--values] FILE..|the text of a run as a table"),
    "names": ("names", "names FILE..|inputs, cells, outputs, what each may take, and traps"),
    "tables": ("skeleton", "tables [--words BITS] FILE..|tables and inputs that fit a specification, to fill in"),
    "assumed": ("assumed", "assumed FILE..|whether a run keeps what the specification assumes"),
    "core": ("core", "core [OPTION].. FILE|which guarantees clash, where an environment wins"),
    "simplify": ("simplify", "simplify [OPTION].. FILE..|a smaller program, which check accepts too"),
    "split": ("split", "split SPEC FOLDER|the parts of a specification that can be answered alone"),
    "code": ("code", "code LANGUAGE [FILE]..|a program in c, python, javascript, rust or verilog"),
    "play": ("play", "play FILE..|a page on which one plays against a program or an environment"),
    "wave": ("wave", "wave FILE..|a run as waveforms, as a picture"),
    "vcd": ("vcd", "vcd FILE..|a run for viewers of waveforms"),
    "draw": ("draw", "draw [OPTION].. [FILE]|a picture of a program, an environment or an automaton"),
    "tlsf": ("tlsf", "tlsf [FILE]|a specification for other tools of synthesis"),
    "back": ("back", "back SPEC CIRCUIT|a circuit of another tool as a program"),
})

FIRST = """tslx synth|check|run|prove|recheck|circuit|automaton|accepts [OPTION].. [FILE]..
                              what tsl does, on the files one after the other; no file, or -: standard input
"""
LAST = """tslx COMMAND --help           what the command takes
tslx --help, tslx --version
"""


def help_text() -> str:
    """What `tslx --help` writes."""
    lines = [it[1].split("|") for it in COMMANDS.values() if it[1]]
    return FIRST + "".join(f"{'tslx ' + words:<29} {what}\n" if len(words) < 25 else f"tslx {words}\n{'':<30}{what}\n"
                           for words, what in lines) + LAST


def command(words: List[str]) -> int:
    """Does what the words ask for."""
    from tslx.files import Stop, shown, write
    if not words:
        raise Stop("no command; tslx --help tells them")
    if words[0] in ("--help", "-h", "help"):
        write(help_text())
        return 0
    if words[0] == "--version":
        write("tslx 1, for tslprogram 1, tsltables 1, tslwords 1, tslinputs 1\n")
        return 0
    if words[0] not in COMMANDS:
        raise Stop(f"no command {shown(words[0])}; tslx --help tells them")
    module = import_module("tslx." + COMMANDS[words[0]][0])
    if "--help" in words[1:] or "-h" in words[1:]:
        write(module.help_of(words[0]) if hasattr(module, "help_of") else module.HELP)
        return 0
    return module.main(words if hasattr(module, "help_of") else words[1:])


INTERRUPTS = (signal.SIGINT, signal.SIGTERM, signal.SIGHUP)


def interrupted(*_: object) -> None:
    """Ends the command with the status 130, and the questions that are asked; further interrupts are not heard."""
    for number in INTERRUPTS:
        signal.signal(number, signal.SIG_IGN)
    # A question that is about to start ends with the command.
    interrupt = getattr(sys.modules.get("tslx.asking"), "interrupt", None)
    if interrupt is None:
        sys.exit(130)
    interrupt()


def main() -> int:
    """Runs the command of the command line, and gives the status."""
    from tslx.files import Stop, tell
    from tslx.tokens import Unreadable
    for name in ("stdout", "stderr"):
        stream = getattr(sys, name)
        if stream is not None:
            stream.reconfigure(encoding="latin-1", errors="replace", newline="\n")
    for number in INTERRUPTS:
        signal.signal(number, interrupted)
    try:
        status = command(sys.argv[1:])
        sys.stdout.flush()
    except Stop as stop:
        if stop.said:
            tell("tslx: " + stop.said)
        status = stop.status
    except Unreadable as fault:
        place = ":".join(str(it) for it in (fault.line, fault.column) if it)
        tell(f"tslx: {place + ': ' if place else ''}{fault.said}")
        status = 3
    except BrokenPipeError:
        os.dup2(os.open(os.devnull, os.O_WRONLY), 1)
        status = 141
    except OSError as error:
        os.dup2(os.open(os.devnull, os.O_WRONLY), 1)
        tell(f"tslx: cannot write: {(error.strerror or str(error)).lower()}")
        status = 7
    return status


if __name__ == "__main__":
    sys.exit(main())
