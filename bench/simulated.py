"""What `fix` makes of simulated sessions, whose truth is known (simulator.py)."""
import math
import os
import subprocess
import sys

sys.dont_write_bytecode = True

from simulator import NAV, ROOT, Session, records_of

sys.path.append(os.path.join(ROOT, "tools"))

from program import find_program  # noqa: E402


class Bench:
    """A program and a folder, in which each session's files take the place of those of the one before."""

    def __init__(self, program, folder):
        self.program, self.folder, self.records = program, folder, records_of(NAV)
        self.base, self.rover = (os.path.join(folder, it) for it in ("base", "rover"))

    def make(self, *session, **more):
        session = Session(*session, **more)
        session.write(session.base, self.base, self.records)
        session.write(session.rover, self.rover, self.records)
        return session

    def run(self, *options):
        return subprocess.run([self.program, "fix", self.base, self.rover, NAV, *options], capture_output=True, text=True)

    def fix(self, session, *options):
        """How far the vector is from the truth in mm, where there is one, and `right`, `wrong` or the decline."""
        ran = self.run(*options)
        if ran.returncode:
            return None, ran.stdout.splitlines()[-1].split()[1]
        right = session.has_right_integers(ran.stdout)
        return apart(vector_of(ran.stderr), session.truth), "right" if right else "wrong"


def add_sessions(parser):
    """How many sessions are made, by how many processes, and where what comes of them stays."""
    parser.add_argument("--results", metavar="FILE", help="where what comes of the sessions is kept, and gone on from")
    parser.add_argument("--seeds", type=int, default=8, metavar="N", help="sessions of each kind, of hours half as many; default 8")
    parser.add_argument("--jobs", type=int, default=1, metavar="N", help="processes at a time; default 1")


def parsed(parser):
    """The options, with the path of the program, that of BASELINE (tools/README.md); the script ends where it isn't there."""
    options = parser.parse_args()
    options.program = find_program()
    return options


def apart(vector, truth):
    """The distance in mm of two vectors in metres."""
    return 1000 * math.dist(list(vector), truth)


def vector_of(text):
    """The vector that `fix` prints on standard error, in metres."""
    return list(map(float, next(line for line in text.splitlines() if line.startswith("baseline ")).split()[1:]))
