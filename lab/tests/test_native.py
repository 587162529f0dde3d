"""The library for C, Rust and Python against the program: the same bytes and the same statuses, from every caller."""

from __future__ import annotations

import ctypes
import os
import re
import shutil
import subprocess
from concurrent.futures import ThreadPoolExecutor
from pathlib import Path

import pytest

from hilldale_lab import native
from hilldale_lab.program import Program, SurfaceRefused, find

ROOT = Path(__file__).resolve().parents[2]
NATIVE = ROOT / "lab" / "native"
BUILT = NATIVE / "build" / "libhilldale.so.1"
SURFACES = sorted((ROOT / "samples").glob("*.sdf"))
SCRIPTS = sorted((ROOT / "samples").glob("*.txt"))
QUESTIONS = (
    "dales\nhills\ntree D\ntree S\nprune D 5%\nlines S 5%\nfill D 5%\ninfo\nparam S10z\nmask 0 0 1 0\n"
    "no line\nset 1 1 9\nneighbours 4\ndales\nhist 4 FC;D;Wolfprune:5%;All;AreaE;Hist\nundo 1\nsaddle D 0 0 1 1\n"
)
pytestmark = pytest.mark.skipif(not BUILT.exists(), reason="the library is not built: lab/native/check")


@pytest.fixture(scope="module")
def library() -> native.Library:
    return native.Library(BUILT)


@pytest.fixture(scope="module")
def scripts(tmp_path_factory) -> list[Path]:
    """The scripts of samples/, and one with many questions."""
    many = tmp_path_factory.mktemp("scripts") / "many.txt"
    many.write_text(QUESTIONS)
    return [*SCRIPTS, many]


@pytest.fixture(scope="module")
def answers(program, scripts) -> dict[tuple[Path, Path], tuple[int, bytes]]:
    """What the program answers to every script on every surface."""
    return {(it, script): called([program, "run", it, script]) for it in SURFACES for script in scripts}


@pytest.fixture(scope="module")
def prefix(tmp_path_factory) -> Path:
    """A place in which the library is installed."""
    needs("gcc", "make", "ar")
    place = tmp_path_factory.mktemp("prefix")
    subprocess.run(["make", "-s", "-C", NATIVE, "install", f"PREFIX={place}"], check=True)
    return place


def needs(*commands: str) -> None:
    for command in commands:
        if shutil.which(command) is None:
            pytest.skip(f"{command} is not installed")


def called(words, **how) -> tuple[int, bytes]:
    ran = subprocess.run([str(word) for word in words], stdin=subprocess.DEVNULL, capture_output=True, check=False, **how)
    return ran.returncode, ran.stdout


def compiled(source: str, place: Path, prefix: Path, *flags: str) -> Path:
    """A program of C over the static library, by the flags that pkg-config tells."""
    needs("gcc", "pkg-config")
    told = subprocess.run(
        ["pkg-config", "--cflags", "--libs-only-L", "hilldale"],
        env={**os.environ, "PKG_CONFIG_PATH": str(prefix / "lib/pkgconfig")},
        capture_output=True,
        text=True,
        check=True,
    )
    name = place / Path(source).stem
    warned = ["-std=c99", "-Wall", "-Wextra", "-Wpedantic", "-Werror", "-g", "-pthread"]
    words = ["gcc", *warned, *flags, "-o", name, NATIVE / source, *told.stdout.split(), "-l:libhilldale.a"]
    subprocess.run(words, check=True)
    return name


def test_python_gives_what_the_program_prints(library, answers):
    for (surface, script), (status, text) in answers.items():
        assert library.run(surface.read_bytes(), script.read_bytes()) == native.Ran(status, text), (surface, script)


def test_c_gives_what_the_program_prints(answers, prefix, tmp_path):
    ask = compiled("examples/ask.c", tmp_path, prefix)
    for names, told in answers.items():
        assert called([ask, *names]) == told, names


def test_cmake_and_cpp(answers, prefix, tmp_path):
    needs("cmake", "g++")
    (tmp_path / "ask.cpp").write_text((NATIVE / "examples/ask.c").read_text().replace("= malloc(", "= (uint8_t *)malloc(")
                                      .replace("= realloc(", "= (uint8_t *)realloc("))
    (tmp_path / "CMakeLists.txt").write_text(
        "cmake_minimum_required(VERSION 3.16)\nproject(ask CXX)\nfind_package(hilldale REQUIRED)\n"
        "add_executable(ask ask.cpp)\ntarget_link_libraries(ask hilldale::hilldale)\n"
    )
    for words in (["cmake", "-B", "made", f"-DCMAKE_PREFIX_PATH={prefix}"], ["cmake", "--build", "made"]):
        subprocess.run(words, cwd=tmp_path, check=True, capture_output=True)
    for names, told in answers.items():
        assert called([tmp_path / "made/ask", *names]) == told, names


def test_rust_gives_what_the_program_prints(answers, prefix, tmp_path):
    needs("cargo")
    words = ["cargo", "build", "-q", "--offline", "--example", "ask", "--target-dir", tmp_path]
    where = {**os.environ, "HILLDALE_LIB_DIR": str(prefix / "lib")}
    subprocess.run(words, cwd=NATIVE / "hilldale-sys", env=where, check=True)
    for names, told in answers.items():
        assert called([tmp_path / "debug/examples/ask", *names]) == told, names


def test_the_example_in_python(answers):
    names, told = next(iter(answers.items()))
    where = {**os.environ, "PYTHONPATH": str(ROOT / "lab/src"), native.VARIABLE: str(BUILT)}
    assert called(["/usr/bin/python3", NATIVE / "examples/ask.py", *names], env=where) == told


def test_what_is_saved_and_checked(library, program, scripts):
    asked = Program(Path(program))
    for surface in (it.read_bytes() for it in SURFACES):
        for script in (it.read_bytes() for it in scripts):
            assert library.run_and_save(surface, script) == saved_by(asked, surface, script)
        for line in (b"audit D 5%\n", b"saddle D 0 0 1 0\n"):
            certificate = asked.run(surface, line).output
            for bytes_ in (certificate, certificate[:-2], b""):
                assert library.check(surface, bytes_) == asked.check(surface, bytes_)


def saved_by(asked: Program, surface: bytes, script: bytes):
    try:
        return asked.edited(surface, script)
    except SurfaceRefused as error:
        return native.Ran(3, f"{error.line}\n".encode()), b""


def test_refusals(library):
    surface = SURFACES[0].read_bytes()
    usage = library.run(surface, b"dales\n", 7)
    assert usage == library.run(surface, b"dales\n", 257) == library.run(b"", b"", 2**32 - 1)
    assert usage.status == 2 and usage.output.startswith(b"usage: hilldale dales SURFACE\n")
    assert library.run(surface[:40], b"dales\n").status == 3
    assert library.run_and_save(surface[:40], b"dales\n")[1] == b""
    assert library.run(surface, b"\n" * 16_777_217) == native.Ran(8, b"second input too long\n")
    assert library.check(surface, b"x" * 134_217_729) == native.Ran(8, b"second input too long\n")


def test_an_output_that_does_not_fit():
    """The first bytes, as many as there is room for, the whole length, and nothing behind the room."""
    call = native.Library(BUILT)._calls.hilldale_run
    surface, script = SURFACES[0].read_bytes(), b"dales\ninfo\n"
    whole = native.Library(BUILT).run(surface, script).output
    for room in (0, 1, 7, len(whole) - 1, len(whole), len(whole) + 1):
        place, needed = ctypes.create_string_buffer(b"\xee" * (len(whole) + 9)), ctypes.c_uint64()
        assert call(surface, len(surface), script, len(script), 64, place, room, ctypes.byref(needed)) == 0
        assert needed.value == len(whole)
        assert place.raw[: len(whole) + 9] == whole[:room] + b"\xee" * (len(whole) + 9 - min(room, len(whole)))


def test_eight_threads_at_once(library, answers):
    asked = [(it.read_bytes(), script.read_bytes()) for it, script in answers] * 8
    with ThreadPoolExecutor(8) as pool:
        told = list(pool.map(lambda given: library.run(*given), asked))
    assert told == [native.Ran(*it) for it in answers.values()] * 8


def test_the_lab_asks_the_library_where_it_is_named(monkeypatch, program):
    surface = SURFACES[0].read_bytes()
    monkeypatch.setenv(native.VARIABLE, str(BUILT))
    asked = find(program)
    assert isinstance(asked, native.NativeProgram)
    assert asked.run(surface, b"dales\n") == Program(Path(program)).run(surface, b"dales\n")
    assert asked.edited(surface, b"set 0 0 5\n") == Program(Path(program)).edited(surface, b"set 0 0 5\n")
    with pytest.raises(SurfaceRefused):
        asked.run(b"", b"")
    monkeypatch.delenv(native.VARIABLE)
    assert type(find(program)) is Program


def test_valgrind_finds_nothing(prefix, tmp_path):
    needs("valgrind")
    name = compiled("tests/threads.c", tmp_path, prefix)
    words = ["valgrind", "-q", "--leak-check=full", "--error-exitcode=99", name, *least()]
    assert called(words)[0] == 0


def test_the_address_sanitizer_finds_nothing(prefix, tmp_path):
    name = compiled("tests/threads.c", tmp_path, prefix, "-fsanitize=address,undefined")
    assert called([name, *least()])[0] == 0


def least() -> list[Path]:
    """The smallest surface, and a script."""
    return [min(SURFACES, key=lambda it: it.stat().st_size), ROOT / "samples/script.txt"]


def test_the_names_and_the_parameters_that_callers_see():
    """A change here breaks callers: it needs a new number behind HILLDALE_ and .so."""
    needs("nm")
    told = subprocess.run(["nm", "-D", "--defined-only", BUILT], capture_output=True, text=True, check=True).stdout
    names = {line.split()[-1] for line in told.splitlines()}
    assert names == {"HILLDALE_1", *(f"{name}@@HILLDALE_1" for name in native.FUNCTIONS)}
    header = (NATIVE / "hilldale.h").read_text()
    declared = dict(re.findall(r"^uint8_t (\w+)\(([^;]*)\);", header, re.M))
    kinds = {name: re.sub(r" \*?\w+(,|$)", r"\1", re.sub(r"\s+", " ", words)) for name, words in declared.items()}
    text, room = "const uint8_t, size_t", "uint8_t, size_t, uint64_t"
    assert kinds == {
        "hilldale_run": f"{text}, {text}, uint32_t, {room}",
        "hilldale_run_and_save": f"{text}, {text}, uint32_t, {room}, {room}",
        "hilldale_check": f"{text}, {text}, {room}",
    }
