"""Surfaces: edits as lines, questions answered by the proved program, and the tutorial's numbers."""

from __future__ import annotations

import os
import re
import signal
import subprocess
import sys
import time
from fractions import Fraction
from pathlib import Path

import numpy as np
import pytest
from hypothesis import given, settings
from hypothesis import strategies as st
from surfaces import height_maps, noise

import hilldale_lab as lab
from hilldale_lab import program as programs
from hilldale_lab.answers import Tree, parse
from hilldale_lab.file_rows import wanted_of
from hilldale_lab.height_map import HeightMap
from hilldale_lab.job import Job, edits_of


@pytest.fixture(autouse=True)
def _use_program(program: str, monkeypatch: pytest.MonkeyPatch) -> None:
    monkeypatch.setenv("HILLDALE_PROGRAM", os.path.abspath(program))


@pytest.fixture
def pockets(root: Path) -> lab.Surface:
    """The sample of the tutorial, with its dust masked."""
    return lab.read(root / "samples" / "pockets.sdf").mask(3, 9, 4, 9)


def same(one: object, other: object) -> bool:
    """Whether two answers are alike, tables too."""
    if type(one) is not type(other):
        return False
    if hasattr(one, "__dataclass_fields__"):
        return all(same(getattr(one, name), getattr(other, name)) for name in one.__dataclass_fields__)
    return np.array_equal(one, other) if isinstance(one, np.ndarray) else one == other


def test_the_tutorials_blocks(root: Path) -> None:
    """Each script of the page is asked by the package, line for line, and gives the answers that the page shows."""
    page = (root / "docs" / "TUTORIAL.md").read_text(encoding="utf-8")
    scripts = dict(re.findall(r"cat >(\w+\.txt) <<'END'\n(.*?)END\n", page, re.S))
    scripts |= {name: f"{line}\n" for line, name in re.findall(r"(?m)^echo '?([^'\n]+?)'? >(\w+\.txt)$", page)}
    form = r"hilldale run (samples/\w+\.sdf) (\w+\.txt)\n```\n\n```text\n(.*?)```"
    blocks = [(file, scripts[name], shown) for file, name, shown in re.findall(form, page, re.S) if name in scripts]
    assert len(blocks) >= 8
    for file, script, shown in blocks:
        told = [
            answer
            for answer in parse(
                shown[shown.find("info\nsize") :].encode()
                if "info\nsize" in shown and not shown.startswith("line")
                else shown.encode(),
                script,
            )
        ]
        edits = [line for line in script.splitlines() if line.split()[0] in ("mask", "neighbours")]
        asked = [line for line in script.splitlines() if line not in edits and not line.startswith(";")]
        surface = lab.read(root / file).line(*edits)
        assert all(same(*pair) for pair in zip(surface.ask(*asked), told[len(told) - len(asked) :], strict=True))


def test_the_tutorials_numbers(pockets: lab.Surface) -> None:
    texts = {
        "S5p": "0.0578 um  (289/5 steps)",
        "S5v": "0.41725 um  (1669/4 steps)",
        "S10z": "0.47505 um  (9501/20 steps)",
        "Spd": "746.667 per mm2  (7/375 per point)",
    }
    assert {name: str(pockets.param(name)) for name in texts} == texts
    assert str(pockets.param("Sda", "-350 nm")) == "2562.5 um2  (205/2 points)"
    assert str(pockets.param("Sha", "0.04 um")) == "1112.5 um2  (89/2 points)"
    assert str(pockets.param("Sda", "100 nm")) == "none"
    assert pockets.param("S10z", percent="2%").exact == Fraction(1974, 5)
    assert pockets.param("S10z", percent="2%").name == "S10z at 2%"
    assert pockets.feature("FC;D;Wolfprune:5%;Closed:-0.35 um;Count;Sum").exact == 2
    assert str(pockets.feature("FC;D;Wolfprune:5%;All;AreaE;Mean")) == "2343.75 um2  (375/4 points)"
    assert [str(pockets.height(name)) for name in ("Sp", "Sv", "Sa")] == [
        "0.125035 um  (46888/375 steps)",
        "0.413965 um  (155237/375 steps)",
        "0.0857492 um  (12058484/140625 steps)",
    ]
    assert str(pockets.height("Smr", 0)) == "0.328  (41/125)"
    assert pockets.hist(4, "FC;H;Wolfprune:5%;All;lpvh") == (2, 0, 1, 4)
    assert pockets.perc("50 nm", "FC;H;Wolfprune:5%;All;lpvh").exact == Fraction(4, 7)
    dust = lab.Surface.from_map(pockets.map)
    assert str(dust.param("S10z")) == "2.35725 um  (9429/4 steps)"


def test_the_tutorials_pockets(pockets: lab.Surface) -> None:
    dales = pockets.dales("5%", at="-450 nm")
    assert [(r.x, r.y, r.height, r.points, r.volume) for r in dales.table] == [
        (6, 4, -432, 113, 5403),
        (17, 5, -477, 92, 5754),
        (11, 11, -480, 114, 5404),
        (21, 12, -405, 56, 4356),
    ]
    assert dales.value(1, "volume").text() == "143.85 um3"
    assert dales.table.closed.all() and dales.table.reaches.tolist() == [False, True, True, False]
    # The two that reach C have 206 points, 103 each.
    assert str(dales.mean_area_reaching()) == "2575 um2  (103/1 points)"
    assert dales.table.depth.tolist()[0] == 404
    assert np.bincount(dales.labels[dales.labels >= 0]).tolist() == [113, 92, 114, 56]
    assert pockets.mean() == 59 - Fraction(46888, 375)
    assert (
        pockets.regions("D", "5%", "-0.3 um from mean").at == -367 and pockets.hills(at="-0.3 um from mean").at == -366
    )


def test_the_tutorials_closings(pockets: lab.Surface) -> None:
    assert (
        str(lab.Surface.from_map(pockets.map).mask(3, 9, 4, 9).close("flat 3x3").param("S10z"))
        == "0.3058 um  (1529/5 steps)"
    )
    pockets.close("flat 3x3").undo().close("ball 1 mm 7x7")
    assert pockets.param("S10z").exact == Fraction(3759, 20)
    assert "element ball-1-mm-7x7 7 7 - - - -113 - - - - -100 -63 -50" in pockets.script()


def test_the_tutorials_decimals(root: Path) -> None:
    groove = lab.read(root / "samples" / "groove.sdf")
    pruning = groove.pruning("D", "20%")
    assert groove.info().places == 4 and groove.info().step == groove.scales.step == Fraction("1e-10")
    assert pruning.kept.tolist() == [[11, 0, -12520, 190]] and len(pruning.gone) == 12
    assert groove.dales("20%").value(0, "height").text() == "-1.252 um"
    assert (groove.labels("D", "20%") >= 0).sum() == 190


def test_a_certificate_and_its_verdict(pockets: lab.Surface, tmp_path: Path) -> None:
    pockets.save(tmp_path / "clean.sdf", masks_as_bad=True)
    clean = lab.read(tmp_path / "clean.sdf")
    assert "BAD" in (tmp_path / "clean.sdf").read_text() and clean.info().present == 375
    saddle = clean.certificate("D", (6, 4), (17, 5))
    assert saddle.startswith("certificate D 8\nfrom 6 4\nto 17 5\nsaddle 8 8 -28\npath 14\n")
    assert saddle == pockets.certificate("D", (6, 4), (17, 5))
    assert clean.check(saddle).words().splitlines()[:-1] == [
        "certificate accepted",
        "Kind: saddle certificate",
        "Side: dales",
        "Neighbours: 8",
        "From: the pit at 6 4",
        "To: the pit at 17 5",
        "Saddle: at 8 8, -28 steps high",
        f"Surface: {tmp_path / 'clean.sdf'}",
        f"SHA-256 of the surface: {clean.sha256}",
    ]
    apart = lab.Surface([[0, 5, 1]], 1, 1, 1).bad(1, 0)
    assert "Saddle: none" in apart.check(apart.certificate("H", (0, 0), (2, 0))).words()
    kept = pockets.audit("D", "5%")
    verdict = pockets.check(kept)
    assert (verdict.accepted, verdict.kind, verdict.side, verdict.percent, verdict.neighbours, verdict.kept) == (
        True,
        "pruning",
        "D",
        "5%",
        8,
        4,
    )
    refused = clean.check(re.sub(r"(?m)^375 .*$", "375 - 375", kept))
    assert (refused.accepted, refused.line, refused.kept) == (False, "certificate refused: rule 17 at 14 14", 5)
    assert clean.check("no certificate\n").line == "certificate unreadable: line 1"
    assert clean.check("").kind is None


def test_one_call_answers_what_waits(pockets: lab.Surface, monkeypatch: pytest.MonkeyPatch) -> None:
    calls = []
    call = programs.Program.run
    monkeypatch.setattr(programs.Program, "run", lambda *words: calls.append(words[2]) or call(*words))
    questions = pockets.questions()
    waiting = [
        questions.param("S10z"),
        questions.regions("D", "5%", "-350 nm"),
        questions.answer("tree D", Tree),
        questions.height("Sa"),
    ]
    assert waiting[0].value.exact == Fraction(9501, 20) and len(calls) == 1
    assert len(waiting[1].value) == 4 and len(waiting[2].value.saddles) == 7 and waiting[3].value.um > 0
    pockets.param("S10z"), pockets.dales("5%", -350), pockets.labels("D"), pockets.tree("D"), pockets.info()
    assert len(calls) == 1
    pockets.height("Smr", "50 nm from mean")
    assert len(calls) == 3 and b"; Smr at 50 nm from mean = " in calls[2]


def test_refusals_are_the_programs_own_lines(pockets: lab.Surface, tmp_path: Path) -> None:
    with pytest.raises(lab.LabError, match="Sq is no feature parameter"):
        pockets.param("Sq")
    with pytest.raises(
        programs.LineRefused, match="line 4 refused: part 4 does not go with the type: feature FC;D"
    ) as refusal:
        questions = pockets.line("; comment").questions()
        fine, wrong = questions.param("S10z"), questions.feature("FC;D;Wolfprune:5%;Top:5;lpvh;Mean")
        assert fine.value.exact == Fraction(9501, 20)
        _ = wrong.value
    assert refusal.value.status == 1 and refusal.value.line == "line 4 refused: part 4 does not go with the type"
    pockets.mask(3, 9, 44, 9)
    with pytest.raises(programs.LineRefused, match=r"line 3 refused: 44 9 is outside: mask 3 9 44 9"):
        pockets.param("S10z")
    assert pockets.remove().param("S10z").exact == Fraction(9501, 20)
    with pytest.raises(lab.LabError, match="no question"):
        pockets.ask("mask 0 0 0 0")
    with pytest.raises(programs.WriteFault, match="cannot write"):
        pockets.save(tmp_path / "none" / "out.sdf")
    broken = lab.Surface.from_map(pockets.map, source=b"no surface")
    with pytest.raises(programs.SurfaceRefused, match="surface refused: line 1: bad version"):
        broken.info()
    with pytest.raises(programs.InputTooLong, match="second input too long"):
        pockets.line(";" * 4000).line(*[";" * 4000] * 4300).info()
    with pytest.raises(programs.ProgramFailed):
        programs.find(str(tmp_path / "none"))


def test_a_program_that_ends_otherwise(pockets: lab.Surface, tmp_path: Path, monkeypatch: pytest.MonkeyPatch) -> None:
    fake = tmp_path / "fake"
    for status, text, kind in [
        (5, "read fault", programs.ReadFault),
        (6, "", programs.WriteFault),
        (7, "", programs.OutOfMemory),
        (9, "what", programs.ProgramFailed),
        (0, "info\\nsize 1 1", programs.LabError),
        (1, "info", programs.LabError),
    ]:
        fake.write_text(f"#!/bin/sh\nprintf '{text}\\n'\n[ {status} = 0 ] || echo 'hilldale: why' >&2\nexit {status}\n")
        fake.chmod(0o755)
        monkeypatch.setenv("HILLDALE_PROGRAM", str(fake))
        with pytest.raises(kind):
            lab.Surface.from_map(pockets.map).info()


def test_scales_that_measure_nothing(root: Path, tmp_path: Path) -> None:
    text = (root / "samples" / "small.sdf").read_bytes()
    path = tmp_path / "surface.sdf"
    for zscale, told in ((b"0", "no scale  (23/1 steps)"), (b"-1e-9", None)):
        path.write_bytes(re.sub(rb"Zscale *= *\S+", b"Zscale = " + zscale, text))
        if told:
            assert str(lab.read(path).param("S10z")) == told
        else:
            with pytest.raises(lab.LabError, match="Zscale is below 0"):
                lab.read(path)


def test_arrays() -> None:
    z = np.array([[0, 5e-9, np.nan], [1e-9, -3e-9, 2e-9]])
    surface = lab.Surface(z, dx=1e-6, dy="2e-6", step="1e-9")
    assert surface.map.steps.tolist() == [[0, 5, 0], [1, -3, 2]] and surface.map.missing == 1
    assert surface.scales.dx == Fraction("1e-6") and surface.info().present == 5
    assert lab.Surface(np.ma.masked_equal([[1, 9]], 9), 1, 1, 1).map.missing == 1
    assert lab.Surface(np.array([[1.4e-9]]), 1, 1, "1e-9", rounding="nearest").map.steps.tolist() == [[1]]
    for wrong in ([[1.5e-9]], [[np.inf]], [1, 2], [["a"]], [[2.0**60]], np.zeros((0, 3))):
        with pytest.raises(lab.LabError):
            lab.Surface(np.array(wrong), 1, 1, "1e-9")
    k = np.random.default_rng(1).integers(-(2**45), 2**45, (50, 50))
    assert (lab.Surface(k * 1e-12, 1, 1, "1e-12").map.steps == k).all()
    assert (lab.Surface((k >> 28).astype(np.float32) * np.float32(1e-9), 1, 1, "1e-9").map.steps == k >> 28).all()
    # A float of 32 bits does not tell half a step of a million.
    with pytest.raises(lab.LabError, match="too few digits"):
        lab.Surface(np.array([[16777216.0]], np.float32), 1, 1, "1")
    with pytest.raises(lab.LabError):
        lab.Surface([[1]], dx=0, dy=1, step=1)
    with pytest.raises(lab.LabError):
        surface.mask_where(np.ones((1, 1), bool))


def test_what_is_not_measured_may_hold_any_number() -> None:
    surface = lab.Surface([[1, -(2**63)]], 1, 1, 1, measured=[[True, False]])
    assert surface.map.steps.tolist() == [[1, 0]] and surface.map.missing == 1


def test_an_element_whose_name_was_taken_is_defined_again() -> None:
    surface = lab.Surface([[1]], "1e-4", "1e-4", "1e-9")
    for element in ("ball 1/2 mm 3x3", "ball 1.2 mm 3x3", "ball 1/2 mm 3x3", "ball 1/2 mm 3x3"):
        surface.open(element)
    commands = [text.split()[0] for text in surface.edits]
    assert commands == ["element", "open", "element", "open", "element", "open", "open"]


@pytest.mark.parametrize("line", ["\f", "\u00a0", "info\u00a0", " " * 5000])
def test_words_are_parted_as_the_program_parts_them(line: str) -> None:
    job = Job.from_text(f"param S10z\n{line}\ninfo\n", "a.txt")
    assert [wanted.name for wanted in wanted_of(job)] == ["S10z"]
    assert edits_of(job.text) == [";", line, ";"]
    surface = lab.Surface([[1]], 1, 1, 1).line(line)
    assert surface.replayed().steps.tolist() == [[1]] and surface.setting == 8


EDITS = st.sampled_from(
    [
        "mask 0 0 1 0",
        "mask 1 0 2 1",
        "unmask 0 0 1 1",
        "open f",
        "dilate f",
        "set 0 0 7",
        "bad 1 1",
        "add 0 0 1 1 3",
        "undo 1",
        "undo 2",
        "neighbours 4",
        "; a comment",
        "element f 3 1 0 0 0",
    ]
)


def test_the_present_map_is_the_programs() -> None:
    @given(height_maps().filter(lambda map_: min(map_.steps.shape) > 2), st.lists(EDITS, max_size=7))
    @settings(max_examples=80, deadline=None)
    def present(map_: HeightMap, edits: list[str]) -> None:
        surface = lab.Surface.from_map(map_).line("element f 3 3 0 1 0 1 2 1 0 1 0", *edits)
        try:
            found = surface.present()
        except programs.LineRefused:
            return
        assert surface.neighbours(8).labels("D", "5%").shape == found.steps.shape
        pits = surface.ask("dales")[0].table
        assert (found.steps[pits[:, 1], pits[:, 0]] == pits[:, 2]).all()

    present()


def test_masks_by_rule_stand_in_the_script(pockets: lab.Surface) -> None:
    pockets.mask_above("0.05 um").mask_below("-0.45 um").mask_circle("30 um", "40 um", "12 um").mask_outliers(9)
    pockets.mask_polygon([(0, 0), (4, 0), (0, 4)]).mask_where(np.zeros((16, 24), bool), "nothing")
    script = pockets.script()
    for comment in (
        "; above 0.05 um = 50 steps: 5 points",
        "; circle round 30 um, 40 um of radius 12 um: 21 points",
        "; nothing: 0 points",
        "; further from the median than 9 times the median absolute deviation: ",
    ):
        assert comment in script
    present = pockets.present()
    assert present.greatest <= 50 and present.least >= -450 and not present.measured[0, :5].any()


def test_nothing_is_left_after_a_stop(tmp_path: Path, program: str) -> None:
    """A call that is stopped by Ctrl-C or killed, with a filter so that the program saves a surface, leaves nothing."""
    code = (
        "import sys; sys.path[:0] = sys.argv[1:3]\nfrom surfaces import noise\nimport hilldale_lab as lab\n"
        "surface = lab.Surface.from_map(noise(700)).open('flat 15x15')\nprint('ready', flush=True)\n"
        "while True:\n    surface.line('; once more').present()\n"
    )
    here = Path(__file__).parent
    environment = os.environ | {"TMPDIR": str(tmp_path), "HILLDALE_PROGRAM": os.path.abspath(program)}
    for wait, stop in ((0.05, signal.SIGINT), (0.3, signal.SIGINT), (0.6, signal.SIGKILL)):
        with subprocess.Popen(
            [sys.executable, "-c", code, str(here), str(here.parent / "src")],
            env=environment,
            text=True,
            stdout=subprocess.PIPE,
            stderr=subprocess.PIPE,
            start_new_session=True,
        ) as process:
            assert process.stdout is not None and process.stdout.readline() == "ready\n"
            time.sleep(wait)
            os.killpg(process.pid, stop)
            process.wait(20)
        assert not list(tmp_path.iterdir())


def test_a_measured_size_is_quick() -> None:
    """A million points: by the processor's time of this process, since a machine may have other work."""
    surface = lab.Surface.from_map(noise(1024))
    pruning = surface.pruning("D", "0%")
    begin = time.process_time()
    surface.labels("D", "0%")
    assert time.process_time() - begin < 1
    begin = time.process_time()
    assert len(surface.dales("0%")) == len(pruning.kept) > 100_000
    assert time.process_time() - begin < 8
