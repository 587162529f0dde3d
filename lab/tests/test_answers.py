"""One grammar for all answers: what the pages show is read, and nothing else is."""

from __future__ import annotations

import re
from fractions import Fraction
from pathlib import Path

import pytest

from hilldale_lab.answers import (
    Accepted,
    Borders,
    Fill,
    Info,
    Label,
    Number,
    Pruning,
    Refused,
    SaddleCertificate,
    Tree,
    UnknownAnswer,
    parse,
    parse_check,
    parse_with_text,
)

OUTPUT = {
    "mask 3 9 4 9": "line 1 ok\n",
    "set 1 0 256": "line 1 refused: height out of range at 1 0\n",
    "elements": "elements 2\nelement f 1 1\nelement g 1 1\n",
    "info": "info\nsize 2 1\ntype 5\npresent 0\nrange none\nscales 1e-6 1e-6 1e-9\n",
    "dales": "dales 2\ndale 0 0 0 2\ndale 2 0 -1 1\n",
    "hills": "hills 0\n",
    "label D 1 0": "label D 1 0 in 0 0\n",
    "saddle D 0 0 2 0": "certificate D 8\nfrom 0 0\nto 2 0\nsaddle 1 0 5\npath 3\n0 0\n1 0\n2 0\ncut 1\n0 0\nend\n",
    "saddle H 0 0 2 0": "certificate H 4\nfrom 0 0\nto 2 0\nsaddle none\ncut 1\n0 0\nend\n",
    "tree D": "tree D 1\nsaddle 1 1 -5 3 0 0 2 0 0 2\n",
    "prune D 90%": "prune D 90% 1 1\nstep 2 0 local 4 saddle 1 0 into 0 0\ndale 0 0 0 3\n",
    "lines H 5.5%": "lines H 5.5% 2\ncourse 6 4 17 5 pairs 18 pass 13 1 -8 around\ncourse 6 4 11 11 pairs 42 pass 8 8 -28 saddle\n",
    "audit D 5%": "pruning D 5% 8\npoints 3\n0 - 0\n2 - 2\n1 0 -\nend\n",
    "fill D 5%": "fill D 5% 2\nvolume 6 4 5403/1\nvolume 17 5 none\n",
    "param Sda +010": "param Sda 10 17/1\n",
    "param Spd": "param Spd none\n",
    "height Sa": "height Sa 12058484/140625\n",
    "feature FC;D;Wolfprune:2%;Bot:5;lpvh;Mean": "feature FC;D;Wolfprune:2%;Bot:5;lpvh;Mean 1687/5\n",
    "hist 4 FC;H;Wolfprune:5%;All;lpvh": "hist 4 FC;H;Wolfprune:5%;All;lpvh 2 0 1 4\n",
    "hist 5 FC;H;Wolfprune:5%;All;lpvh": "hist 5 FC;H;Wolfprune:5%;All;lpvh none\n",
    "perc -50 FC;H;Wolfprune:5%;All;lpvh": "perc -50 FC;H;Wolfprune:5%;All;lpvh 4/7\n",
}


@pytest.mark.parametrize("line", OUTPUT)
def test_each_answer(line: str) -> None:
    output = OUTPUT[line]
    [(answer, text)] = parse_with_text(output.encode(), f"{line}\n")
    assert text == output
    for wrong in (
        output + output,
        output[:-1],
        output.replace(" ", "  ", 1),
        output.replace("\n", " x\n", 1),
        "\n" + output,
        "",
    ):
        with pytest.raises(UnknownAnswer):
            parse(wrong.encode(), f"{line}\n")
    lines = output.splitlines(keepends=True)
    if len(lines) > 1:
        with pytest.raises(UnknownAnswer):
            parse("".join(lines[:-1]).encode(), f"{line}\n")
    # An answer to another line is none to this one.
    other = next(
        text for command, text in OUTPUT.items() if command.split()[0] != line.split()[0] and text[:5] != output[:5]
    )
    with pytest.raises(UnknownAnswer):
        parse(other.replace("line 1 ok", "ok").encode(), f"{line}\n")
    assert not isinstance(answer, Accepted) or answer.number == 1


def test_what_is_read() -> None:
    script = "; a comment\n\n" + "\n".join(OUTPUT)
    numbered = "".join(text.replace("line 1", f"line {number}") for number, text in enumerate(OUTPUT.values(), 3))
    found = parse(numbered.encode(), script)
    assert found[:2] == [Accepted(3), Refused(4, "height out of range at 1 0")]
    assert found[3] == Info(2, 1, 5, None, 0, None, None, "1e-6", "1e-6", "1e-9")
    assert found[6] == Label("D", (1, 0), (0, 0))
    certificate, apart, tree, pruning, lines, audit, fill = found[7:14]
    assert isinstance(certificate, SaddleCertificate) and certificate.saddle == (1, 0, 5) and certificate.end == (2, 0)
    assert isinstance(apart, SaddleCertificate) and apart.saddle is None and apart.neighbours == 4
    assert isinstance(tree, Tree) and tree.saddles[0].pits == ((0, 0), (2, 0), (0, 2)) and tree.saddles[0].height == -5
    assert (
        isinstance(pruning, Pruning)
        and pruning.gone.tolist() == [[2, 0, 4, 1, 0, 0, 0]]
        and pruning.kept.tolist() == [[0, 0, 0, 3]]
    )
    assert (
        isinstance(lines, Borders)
        and lines.is_saddle.tolist() == [False, True]
        and lines.table[0].tolist() == [6, 4, 17, 5, 18, 13, 1, -8]
    )
    assert audit.kept == 2 and audit.points == 3 and audit.text == OUTPUT["audit D 5%"]
    assert isinstance(fill, Fill) and fill.volumes == ((6, 4, 5403), (17, 5, None))
    assert found[14] == Number("param Sda 10", Fraction(17)) and found[15] == Number("param Spd", None)
    assert found[18].counts == (2, 0, 1, 4) and found[19].counts is None


def test_words_of_the_page_are_known(root: Path) -> None:
    """Each command that FORMATS names has a reader or is an edit."""
    from hilldale_lab.answers import EDITS, QUESTIONS

    page = (root / "docs" / "FORMATS.md").read_text(encoding="utf-8").split("## A script\n")[1].split("\n## ")[0]
    commands, refusals = page.split("### Edits that are undone")
    rows = re.findall(r"(?m)^\| (`[a-z]+[^|]*) \|[^|]*\|[^|]*\|$", commands)
    assert {word for row in rows for word in re.findall(r"`([a-z]+)[ `]", row)} == {*EDITS, *QUESTIONS}
    texts = [text for row in re.findall(r"(?m)^\| (`[^|]*) \|", refusals) for text in re.findall(r"`([^`]*)`", row)]
    assert len(texts) >= 19
    for text in texts:
        told = re.sub(r"\b[XYKN]\b", "3", text)
        assert parse(f"line 1 refused: {told}\n".encode(), "mask\n") == [Refused(1, told)]


def test_verdicts() -> None:
    assert parse_check(b"certificate accepted\n").is_accepted
    refused = parse_check(b"certificate refused: rule 17 at 14 14\n")
    assert (refused.rule, refused.point, refused.is_accepted) == (17, (14, 14), False)
    assert parse_check(b"certificate unreadable: line 3\n").line == 3
    for wrong in (
        b"",
        b"certificate accepted",
        b"certificate accepted\n\n",
        b"certificate refused: rule 17\n",
        b"read fault\n",
    ):
        with pytest.raises(UnknownAnswer):
            parse_check(wrong)
