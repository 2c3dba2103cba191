"""Files as `tsl` takes them, one after the other, and what is written at a terminal."""
import os
import sys
from dataclasses import dataclass
from typing import List, Sequence, Tuple


class Stop(Exception):
    """Ends the command with a sentence on the error output and a status."""

    def __init__(self, said: str, status: int = 2):
        super().__init__(said)
        self.said = said
        self.status = status


def shown(name: str) -> str:
    """A word of the command line as text that can be written, whatever bytes it has."""
    return os.fsencode(name).decode("latin-1")


def write(text: str) -> None:
    """Writes a text to standard output."""
    sys.stdout.write(text)


def tell(said: str) -> None:
    """Writes a line to the error output, after all that was written before."""
    sys.stdout.flush()
    sys.stderr.write(said + "\n")
    sys.stderr.flush()


@dataclass
class Gathered:
    """Files one after the other, each ended by a line feed, and for each the line of the whole at which it begins."""
    data: bytes
    files: List[Tuple[int, str]]

    @property
    def text(self) -> str:
        """The whole as text."""
        return self.data.decode("latin-1")

    def place(self, line: int) -> Tuple[str, int]:
        """The file in which a line of the whole stands, and its number there."""
        start, name = [it for it in self.files if it[0] <= line or it is self.files[0]][-1]
        return name, line - start + 1

    def text_of(self, at: int) -> str:
        """The text of one of the files."""
        lines = self.text.split("\n")
        end = self.files[at + 1][0] - 1 if at + 1 < len(self.files) else len(lines)
        return "\n".join(lines[self.files[at][0] - 1:end]) + ("\n" if at + 1 < len(self.files) else "")


def read_file(name: str) -> bytes:
    """The bytes of a file, a pipe or a device, or of standard input for `-`."""
    try:
        if name == "-":
            return sys.stdin.buffer.read() if sys.stdin else b""
        with open(name, "rb") as file:
            return file.read()
    except IsADirectoryError:
        raise Stop(f"{shown(name)} is a folder, and a file is meant")
    except FileNotFoundError:
        raise Stop(f"cannot read {shown(name)}: there is no such file")
    except OSError as error:
        raise Stop(f"cannot read {shown(name)}: {(error.strerror or str(error)).lower()}")


def gather(names: Sequence[str]) -> Gathered:
    """The files of these names one after the other; without a name, standard input."""
    parts: List[bytes] = []
    files: List[Tuple[int, str]] = []
    line = 1
    for name in names or ["-"]:
        data = read_file(name)
        if data and not data.endswith(b"\n"):
            data += b"\n"
        files.append((line, shown(name)))
        parts.append(data)
        line += data.count(b"\n")
    return Gathered(b"".join(parts), files)
