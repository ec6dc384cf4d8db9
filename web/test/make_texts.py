#!/usr/bin/env python3
"""make_texts.py PROGRAM FOLDER [COUNT [SEED]]: certificates and tracks for compare.mjs.

PROGRAM is the built program. Into FOLDER go, as files `KIND-NUMBER`:

  case     every text that a case of cases/ gives to check, check-track or residuals, and every one that fix, track or
           migrate print there
  example  the certificates and tracks that are changed: of the example and of simulated sessions
  session  COUNT texts made from certificates by the changes of tools/mutate
  track    COUNT texts made from tracks so
  budget   COUNT/4 texts of both kinds with a budget of 1 to 3,000
  digit    COUNT/4 texts of both kinds in which one digit of a row, of an arc or of the tail is another

COUNT is 1,000 and SEED 41 if they aren't given: the same seed makes the same texts.
"""
from __future__ import annotations

import importlib.machinery
import importlib.util
import os
import random
import re
import stat
import subprocess
import sys
import tempfile
from types import ModuleType

sys.dont_write_bytecode = True
ROOT = os.path.dirname(os.path.dirname(os.path.dirname(os.path.abspath(__file__))))
# The bands, the system, the number of epochs and of satellites of the simulated sessions.
SESSIONS = [("12", "G", 12, 6), ("125", "G", 12, 6), ("15", "E", 12, 6), ("12", "G", 5, 7), ("15", "G", 20, 8),
            ("125", "G", 3, 9)]
EXAMPLE = [os.path.join(ROOT, "examples", name)
           for name in ("g2_quarter_base.rnx", "g2_quarter_rover.rnx", "geonet.nav")]
EXAMPLE_OPTIONS = [[], ["--count", "5"], ["--jump", "1"], ["--ratio", "15000"]]
CHANGED_LINES = re.compile(rb"row|arc|z1|z2|move|values|pair|ratio")

# Stands in place of the program when the cases run: keeps each text that it is given and each that it prints.
KEEPER = """#!/usr/bin/env python3
import os, subprocess, sys, tempfile
words = sys.argv[1:]
def keep(data):
    handle, _ = tempfile.mkstemp(prefix="case-", dir={folder!r})
    with os.fdopen(handle, "wb") as kept:
        kept.write(data)
if words[:1] and words[0] in ("check", "check-track", "residuals"):
    for word in filter(os.path.isfile, words[1:]):
        with open(word, "rb") as given:
            keep(given.read())
if not words or words[0] not in ("fix", "track", "migrate"):
    os.execv({program!r}, [{program!r}, *words])
got = subprocess.run([{program!r}, *words], stdout=subprocess.PIPE)
if got.stdout:
    keep(got.stdout)
sys.stdout.buffer.write(got.stdout)
sys.exit(got.returncode)
"""


def load_script(path: str) -> ModuleType:
    """A script without a suffix, as a module. It finds the modules beside it, as it does when it is called."""
    if os.path.dirname(path) not in sys.path:
        sys.path.append(os.path.dirname(path))
    loader = importlib.machinery.SourceFileLoader(os.path.basename(path), path)
    spec = importlib.util.spec_from_loader(loader.name, loader)
    module = importlib.util.module_from_spec(spec)
    loader.exec_module(module)
    return module


def printed(program: str, room: str, *words: str) -> bytes:
    """What the program prints in a folder."""
    return subprocess.run([program, *words], cwd=room, capture_output=True, check=False).stdout


def keep_cases(program: str, folder: str, files: tuple[str, ...] = ()) -> None:
    """Runs the cases of these files, of all if none is named, and keeps their texts."""
    with tempfile.NamedTemporaryFile("w", suffix="-keep", delete=False) as file:
        file.write(KEEPER.format(folder=folder, program=program))
    os.chmod(file.name, os.stat(file.name).st_mode | stat.S_IXUSR)
    try:
        subprocess.run([sys.executable, os.path.join(ROOT, "tools", "check_cases"), *files], check=False,
                       stdout=subprocess.DEVNULL, env={**os.environ, "BASELINE": file.name})
    finally:
        os.unlink(file.name)
    if not any(name.startswith("case-") for name in os.listdir(folder)):
        sys.exit("make_texts.py: no text of a case was kept")


def simulated(program: str, command: str) -> list[bytes]:
    """What `fix` or `track` prints of the simulated sessions, each also with a budget of 1."""
    texts = []
    with tempfile.TemporaryDirectory() as room:
        for bands, system, epochs, satellites in SESSIONS:
            options = ["--bands", bands, "--system", system]
            for part in ("base", "rover", "nav"):
                with open(os.path.join(room, part), "wb") as file:
                    file.write(printed(program, room, "sim", part, "1", str(epochs), str(satellites), *options))
            options += ["--arc", "3"] if epochs < 5 else []
            for budget in ([], ["--budget", "1"]):
                texts.append(printed(program, room, command, "base", "rover", "nav", *options, *budget))
    return texts


def good_texts(program: str, mutate: ModuleType) -> tuple[list[bytes], list[bytes]]:
    """Certificates and tracks."""
    found = {}
    for command in ("fix", "track"):
        found[command] = simulated(program, command)
        found[command] += [printed(program, ".", command, *EXAMPLE, *options) for options in EXAMPLE_OPTIONS]
    tails = ["declined weak fine 0 -6\n", "declined overwidth fine y\n",
             "z1 0 0\nz2 0 1\nmove 0 0 0\nvalues 35 0 0 0\ndeclined unseparated\n"]
    track_tails = ["declined weak 0 -8\n", "declined overwidth y\n", "declined spent 1000\n",
                   "z1 -1 1073741823\nz2 7 7\nmove 0 1 -2 3\nmove 4 -1 0 5\nvalues 127 -1 2 -3\ndeclined unseparated\n"]
    certificates = found["fix"] + [mutate.small_certificate(tail) for tail in tails]
    tracks = found["track"] + [mutate.small_track(tail) for tail in track_tails]
    return ([text for text in certificates if text.startswith(b"baseline-cert")],
            [text for text in tracks if text.startswith(b"baseline-track")])


def other_budget(text: bytes, chance: random.Random) -> bytes:
    """The text with a small budget."""
    budget = chance.randint(1, chance.choice((40, 300, 3000)))
    return re.sub(rb"\nbudget [0-9]+\n", b"\nbudget %d\n" % budget, text)


def other_digit(text: bytes, chance: random.Random) -> bytes:
    """Another digit in the middle of a number: its length and its sign stay."""
    lines = text.split(b"\n")
    at = chance.choice([at for at, line in enumerate(lines) if CHANGED_LINES.match(line)])
    line = lines[at]
    digits = [k for k in range(1, len(line)) if line[k - 1:k].isdigit() and line[k:k + 1].isdigit()]
    if digits:
        k = chance.choice(digits)
        lines[at] = line[:k] + bytes([chance.randrange(48, 58)]) + line[k + 1:]
    return b"\n".join(lines)


def main(program: str, folder: str, count: int = 1000, seed: int = 41) -> None:
    """Makes all texts."""
    program, folder = os.path.abspath(program), os.path.abspath(folder)
    os.makedirs(folder, exist_ok=True)
    mutate = load_script(os.path.join(ROOT, "tools", "mutate"))
    changes, chance = mutate.Changes(seed), random.Random(seed)
    certificates, tracks = good_texts(program, mutate)
    both = certificates + tracks
    made = {
        "session": [changes.of(chance.choice(certificates)) for _ in range(count)],
        "track": [changes.of(chance.choice(tracks)) for _ in range(count)],
        "budget": [other_budget(chance.choice(both), chance) for _ in range(count // 4)],
        "digit": [other_digit(chance.choice(both), chance) for _ in range(count // 4)],
        "example": both,
    }
    for kind, texts in made.items():
        for number, text in enumerate(texts):
            with open(os.path.join(folder, f"{kind}-{number:04d}"), "wb") as file:
                file.write(text)
    keep_cases(program, folder)
    print(f"{len(os.listdir(folder))} texts in {folder}")


if __name__ == "__main__":
    if not 3 <= len(sys.argv) <= 5:
        sys.exit(__doc__)
    main(*sys.argv[1:3], *map(int, sys.argv[3:5]))
