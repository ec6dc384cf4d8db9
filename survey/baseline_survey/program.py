"""The program `baseline`, which proves and checks: where it is, and one run of it.

A run is a list of words, never a text for a shell, so a file's name may hold anything. Names are put after the word `--`,
so one that begins with a dash is a name too.
"""
from __future__ import annotations

import os
import shutil
import subprocess
from dataclasses import dataclass
from pathlib import Path
from typing import Callable, Optional, Sequence

from .errors import SurveyError
from .packed import why_packed

USAGE, REFUSED = 2, 3
# What a check says of a certificate's bytes.
Check = Callable[[bytes], str]


class ProgramError(SurveyError):
    """The program isn't found, or it refused its files."""


@dataclass(frozen=True)
class Run:
    """What a run printed, and its status: 0 yes, 1 no, 2 and above a failure (docs/GUIDE.md, "Statuses for scripts")."""

    out: bytes
    errors: bytes
    status: int

    @property
    def last_error(self) -> str:
        """The last line on standard error."""
        lines = self.errors.decode("utf-8", "backslashreplace").strip().splitlines()
        return lines[-1] if lines else f"status {self.status}"


def find(named: Optional[str] = None) -> str:
    """The program: the named one, else that of the variable BASELINE, else `baseline` in the repository that this package
    lies in, else `baseline` in PATH. ProgramError where there is none."""
    own = Path(__file__).resolve().parents[2] / "baseline"
    for word in (named, os.environ.get("BASELINE")):
        if word:
            found = shutil.which(word) or shutil.which(os.path.abspath(word))
            if not found:
                raise ProgramError(f"no program {word}")
            return found
    found = str(own) if os.access(own, os.X_OK) and own.is_file() else shutil.which("baseline")
    if not found:
        raise ProgramError("the program `baseline` isn't found: name it by --program or by the variable BASELINE")
    return found


def run(program: str, command: str, options: Sequence[str], names: Sequence[str], data: Optional[bytes] = None) -> Run:
    """Runs a command with options and names of files; `data` goes to its standard input."""
    try:
        ran = subprocess.run([program, command, *options, "--", *names], input=data, stdin=None if data is not None else subprocess.DEVNULL,
                             capture_output=True, check=False)
    except (OSError, ValueError) as why:
        raise ProgramError(f"the program can't be run: {why}") from None
    return Run(ran.stdout, ran.stderr, ran.returncode)


def fix(program: str, options: Sequence[str], base: str, rover: str, navigation: str, command: str = "fix") -> Run:
    """Runs `fix`, or `track`. ProgramError with the program's own line where it gave no answer (status 2 and above, or a signal)."""
    for name in (base, rover, navigation):
        _refuse_packed(name)
    ran = run(program, command, options, [base, rover, navigation])
    if ran.status not in (0, 1):
        raise ProgramError(f"{command}: {ran.last_error}" if ran.status > 0 else f"{command} was ended by signal {-ran.status}")
    return ran


def _refuse_packed(name: str) -> None:
    """The program would say that such a file isn't RINEX; this says how to unpack it. A pipe is left alone."""
    if os.path.isfile(name):
        with open(name, "rb") as file:
            if packed := why_packed(file.read(80)):
                raise SurveyError(f"{name}: {packed}")


def check(program: str, certificate: bytes) -> str:
    """What `check` says of these bytes: `certified`, `not certified ..` or `refused: ..`. The bytes go through a pipe, so what
    is checked is what was read."""
    ran = run(program, "check", [], ["/dev/stdin"], certificate)
    if ran.status in (0, 1):
        return ran.out.decode("latin-1").strip()
    if ran.status == REFUSED:
        return ran.last_error
    raise ProgramError(f"check: {ran.last_error}")
