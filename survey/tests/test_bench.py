"""What the scripts of bench/ share: tables between marks, results that a stopped run left, the rule's fit."""
import argparse
import dataclasses
import importlib.machinery
import importlib.util
import json
import sys

import pytest
from test_cli import HERE

BENCH = HERE.parent / "bench"


@pytest.fixture
def bench(monkeypatch):
    """Loads a script or a module of bench/ by its name."""
    monkeypatch.setattr(sys, "path", [str(BENCH), *sys.path])

    def load(name):
        loader = importlib.machinery.SourceFileLoader(name.removesuffix(".py"), str(BENCH / name))
        module = importlib.util.module_from_spec(importlib.util.spec_from_loader(loader.name, loader))
        monkeypatch.setitem(sys.modules, loader.name, module)
        loader.exec_module(module)
        return module

    return load


@pytest.fixture
def marks(bench, monkeypatch, tmp_path):
    module = bench("marks.py")
    monkeypatch.setattr(module, "ROOT", str(tmp_path))
    return module


def page(name, *rows):
    return "\n".join([f"<!-- {name}: printed by bench/x -->", "", *rows, "", f"<!-- end of {name} -->"])


def test_a_table_takes_the_place_of_its_own(marks, tmp_path, capsys):
    (tmp_path / "docs").mkdir()
    (tmp_path / "docs" / "A.md").write_text(f"before\n\n{page('one', 'old', 'more')}\n\n{page('two', 'kept')}\n")
    options = argparse.Namespace(page=True, kept_tables=str(tmp_path / "kept"))
    marks.publish(options, "bench/x", "one", (it for it in ["| a |", "\\1"]))
    assert (tmp_path / "docs" / "A.md").read_text() == f"before\n\n{page('one', '| a |', chr(92) + '1')}\n\n{page('two', 'kept')}\n"
    assert capsys.readouterr().out == "\n| a |\n\\1\n"
    assert (tmp_path / "kept" / "one.md").read_text() == page("one", "| a |", "\\1") + "\n"


@pytest.mark.parametrize("texts",
                         [[], [page("one"), page("one")], [page("one") + "\n" + page("one")], ["<!-- one: printed by bench/x -->\n"]])
def test_marks_that_stand_in_no_page_or_twice(marks, tmp_path, texts):
    for k, text in enumerate(texts):
        (tmp_path / f"{k}.md").write_text(text)
    assert not marks.put(page("one", "new"))
    with pytest.raises(SystemExit, match="one"):
        marks.publish(argparse.Namespace(page=True, kept_tables=None), "bench/x", "one", ["new"])
    assert [(tmp_path / f"{k}.md").read_text() for k in range(len(texts))] == texts


def test_kept_tables_are_put(marks, tmp_path, capsys):
    """Those whose marks a page has; the others are named, with status 1."""
    kept = tmp_path / "kept"
    kept.mkdir()
    (kept / "one.md").write_text(page("one", "new") + "\n")
    (tmp_path / "A.md").write_text(page("one", "old"))
    assert marks.main([str(kept)]) == 0 and (tmp_path / "A.md").read_text() == page("one", "new")
    (kept / "two.md").write_text(page("two", "new") + "\n")
    assert marks.main([str(kept)]) == 1 and "two.md: its marks do not stand in one page once" in capsys.readouterr().out


def test_results_go_on(bench, tmp_path):
    """A line that a stopped run left unfinished goes; the whole ones stay."""
    vectors = bench("vectors.py")
    found = vectors.Found(vectors.QUARTERS[0], 5, 3, {"`fix`": 1.5, "`both`": 1.0}, is_far=True, ppm=0.5)
    line, name = json.dumps(dataclasses.asdict(found)), tmp_path / "results"
    for text, lines in (("", 0), (line, 0), (line + "\n", 1), (line + "\n" + line[:50], 1)):
        name.write_text(text)
        assert vectors.read_results(name) == [found] * lines and name.read_text() == (line + "\n") * lines


def test_the_rule_is_fitted(bench):
    """Of sessions in which `both` is worse from a reach of 10 on, and `ionosphere-free` always equally bad, the limit lies there."""
    vectors, fit = bench("vectors.py"), bench("fit_rule")
    kinds = [vectors.Kind(km, 0, 1 + round(120 * minutes / 60)) for km in range(1, 21) for minutes in (1, 4, 16)]
    found = []
    for kind in kinds:
        reach = fit.reach(kind.length_m, kind.seconds)
        found += [vectors.Found(kind, 5, seed, {fit.BOTH: reach, fit.FREE: 10.0}) for seed in (1, 2, 3)]
    costs = fit.costs_of(found)
    least, most = fit.flat_part(costs)
    assert least <= 10 <= most and most < 14 and min(costs, key=costs.get) == pytest.approx(10, rel=0.1)
    assert fit.cost(found, lambda it: it.errors[fit.FREE]) == 10
    table = list(fit.lines(found, found, 10))
    assert sum("the fitted one" in it for it in table) == 1
