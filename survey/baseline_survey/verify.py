"""Does a certificate come from these files? `fix`, or `track`, is run on them again, and the bytes are compared.

A check of a certificate decides its rows again, but binds neither the files nor the lines `base` and `point`, from which the
vector follows (docs/FIXED.md, "What a check binds"). A forged text is told from a true one by the files alone. The ratio, the
budget, the system and the bands are the certificate's own; the other options of `fix` don't stand in it and must be the ones
that it was made with. That the same program gives the same text for the same files is tested, not proved; another version of
the program may give another.
"""
from __future__ import annotations

from dataclasses import dataclass
from typing import Optional, Sequence

from . import certificate, program
from .errors import SurveyError

# What the certificate itself says, and so isn't asked for.
OWN = ("--ratio", "--budget", "--system", "--bands")


@dataclass(frozen=True)
class Difference:
    """The first line that differs, from 1, with both texts; None where a text ends before."""

    line: int
    certificate: Optional[str]
    files: Optional[str]


@dataclass(frozen=True)
class Verified:
    """The options that `fix` was run with, the checksums of what was compared, and the difference, if there is one."""

    options: Sequence[str]
    sha256: str
    difference: Optional[Difference]

    @property
    def is_same(self) -> bool:
        return self.difference is None


def options_of(cert: certificate.Certificate, more: Sequence[str]) -> list[str]:
    """The options of `fix` by the certificate, with the given ones after them. SurveyError where one of `more` is told by the
    certificate itself and says otherwise."""
    own = {"--ratio": str(cert.ratio), "--budget": str(cert.budget), "--system": cert.system, "--bands": "".join(map(str, cert.bands))}
    rest = []
    for name, value in pairs_of(more):
        if name in own and own[name] != value:
            raise SurveyError(f"{name} {value}: the certificate says {own[name]}")
        if name not in own:
            rest += [name, value]
    return [word for item in own.items() for word in item] + rest


def pairs_of(words: Sequence[str]) -> list[tuple[str, str]]:
    """The options of `fix` as names and values, spelled `--name value` or `--name=value`."""
    told, rest = [], list(words)
    while rest:
        name, equals, value = rest.pop(0).partition("=")
        if not name.startswith("--") or len(name) < 3:
            raise SurveyError(f"{name}: no option of `fix`")
        if not equals:
            if not rest:
                raise SurveyError(f"{name}: its value is missing")
            value = rest.pop(0)
        told.append((name, value))
    return told


def verify(data: bytes, name: str, base: str, rover: str, navigation: str, more: Sequence[str] = (),
           named_program: Optional[str] = None) -> Verified:
    """Runs `fix` again for the certificate in `data`, or `track` for that of a track, and compares. CertificateError where it is none,
    ProgramError where the program isn't found or refuses the files."""
    cert = certificate.read(data, name)
    options = options_of(cert, more)
    again = program.fix(program.find(named_program), options, base, rover, navigation, "track" if cert.is_track else "fix")
    return Verified(options, cert.sha256, difference(data, again.out))


def difference(one: bytes, other: bytes) -> Optional[Difference]:
    """The first line in which two texts differ."""
    if one == other:
        return None
    ours, theirs = one.split(b"\n"), other.split(b"\n")
    at = next((k for k, (a, b) in enumerate(zip(ours, theirs)) if a != b), min(len(ours), len(theirs)))
    return Difference(at + 1, *(lines[at].decode("latin-1") if at < len(lines) else None for lines in (ours, theirs)))
