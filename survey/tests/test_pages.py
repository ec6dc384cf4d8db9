"""The commands of the pages run as they stand there, each page in a folder of its own, and print what it shows: by the rules of
tools/check_examples, which leaves these pages to this test."""
import importlib.machinery
import importlib.util
import os
import sys

import pytest
from test_cli import HERE

ROOT = HERE.parent
PAGES = ["survey/README.md", "survey/OPERATOR.md"]


@pytest.fixture
def check_examples(program, monkeypatch):
    """The script as a module. What it puts into the environment for the commands, the program found before, ends with the test."""
    for name, value in {"BASELINE": "", "PYTHONDONTWRITEBYTECODE": "1", "SURVEY": "./baseline-survey"}.items():
        monkeypatch.setenv(name, value)
    monkeypatch.setattr(sys, "path", [*sys.path, str(ROOT / "tools")])
    loader = importlib.machinery.SourceFileLoader("check_examples", str(ROOT / "tools" / "check_examples"))
    module = importlib.util.module_from_spec(importlib.util.spec_from_loader("check_examples", loader))
    loader.exec_module(module)
    return module


def run(check_examples, name, program):
    """A page that was run, beside whose commands stand the package and its command."""
    class SurveyPage(check_examples.Page):
        def __init__(self, name, folder):
            super().__init__(name, folder)
            for beside in ("baseline-survey", "survey"):
                os.symlink(ROOT / beside, os.path.join(folder, beside))

    return check_examples.check_page(str(name), str(program), SurveyPage)


@pytest.mark.parametrize("name", PAGES)
def test_a_page(name, check_examples, program):
    page = run(check_examples, name, program)
    assert page.faults == [] and page.checked >= 8


def test_a_wrong_page(check_examples, program, tmp_path):
    """Another output, another status and a lost line are seen, also after an empty line."""
    lines = ["    $ echo one", "    two", "", "    $ false", "", "    $ printf '1\\n\\n2\\n'", "    1", "", "    $ printf '1\\n\\n2\\n'",
             "    1", "", "    2", ""]
    (tmp_path / "page.md").write_text("\n".join(lines))
    page = run(check_examples, tmp_path / "page.md", program)
    assert [number for _, number, *_ in page.faults] == [1, 4, 6] and page.checked == 4


def test_a_page_that_nobody_runs(check_examples, monkeypatch):
    """A page with commands is in one of both lists, and the file that the second names for it names it."""
    assert list(check_examples.unknown_pages()) == []
    monkeypatch.delitem(check_examples.ELSEWHERE, PAGES[0])
    monkeypatch.setitem(check_examples.ELSEWHERE, PAGES[1], "tools/check_recipes")
    assert sorted(check_examples.unknown_pages()) == sorted(PAGES)
