"""Where the tests find the repository's examples and its built program."""
import os
import sys
from pathlib import Path

import pytest

HERE = Path(__file__).resolve().parent
sys.path.insert(0, str(HERE.parent))
sys.path.insert(0, str(HERE))
sys.dont_write_bytecode = True


def repository() -> Path:
    """The repository: the folder above survey/, or that of BASELINE_EXAMPLES."""
    named = os.environ.get("BASELINE_EXAMPLES")
    return Path(named).resolve().parent if named else HERE.parent.parent


@pytest.fixture
def examples() -> Path:
    folder = repository() / "examples"
    assert folder.is_dir(), "BASELINE_EXAMPLES must name the repository's examples/"
    return folder


@pytest.fixture
def program() -> Path:
    """The built program, named by BASELINE or in the repository."""
    found = Path(os.environ.get("BASELINE") or repository() / "crates" / "baseline_app" / "out" / "baseline_app")
    if not os.access(found, os.X_OK):
        pytest.skip("the program isn't built; BASELINE names it")
    return found
