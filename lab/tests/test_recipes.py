"""The engines that others have: each gives the bytes of the table that `batch` makes."""

from __future__ import annotations

import importlib.util
import os
import re
import shutil
import socket
import subprocess
import sys
import time
from collections.abc import Iterator
from pathlib import Path

import pytest
from folders import JOB, make_folder, surface

from hilldale_lab.cli import main

RECIPES = Path(__file__).resolve().parents[1] / "recipes"


def needs(command: str, package: str) -> pytest.MarkDecorator:
    return pytest.mark.skipif(
        shutil.which(command) is None, reason=f"{package} is not installed: apt-get install {package}"
    )


@pytest.fixture
def files(program: str, tmp_path: Path, monkeypatch: pytest.MonkeyPatch) -> list[str]:
    """A folder with the table that `batch` makes of it; the calls are made beside it."""
    monkeypatch.setenv("HILLDALE_PROGRAM", os.path.abspath(program))
    monkeypatch.chdir(tmp_path)
    Path("job.toml").write_text(JOB)
    names = make_folder(tmp_path / "parts", 6)
    assert main(["batch", "job.toml", *names, "-o", "batch.csv", "--workers", "1"]) == 1
    return names


def standing_in(name: str, text: str) -> None:
    """A program of this name, first in the path."""
    Path("bin").mkdir(exist_ok=True)
    Path("bin", name).write_text("#!/bin/sh\n" + text)
    Path("bin", name).chmod(0o755)


def with_bin(**more: str) -> dict[str, str]:
    return os.environ | {"PATH": f"{os.path.abspath('bin')}:{os.environ['PATH']}", "HOME": os.getcwd()} | more


def parallel(files: list[str], *words: str, **more: str) -> subprocess.CompletedProcess[bytes]:
    names = b"".join(os.fsencode(file) + b"\0" for file in files)
    call = [str(RECIPES / "parallel" / "table"), "job.toml", "table.csv", *words]
    return subprocess.run(call, input=names, env=with_bin(CHUNK="4", **more), capture_output=True, check=False)


@needs("parallel", "parallel")
def test_parallel_goes_on_from_where_it_stopped(files: list[str]) -> None:
    program = os.environ["HILLDALE_PROGRAM"]
    standing_in("faulty", f'[ ! -e full ] || ! grep -q "NumPoints = 25" "$2" || exit 7\nexec "{program}" "$@"\n')
    Path("full").touch()
    stopped = parallel(files, "-j", "1", HILLDALE_PROGRAM=os.path.abspath("bin/faulty"))
    assert stopped.returncode == 1 and b"the same call goes on" in stopped.stderr
    assert not Path("table.csv").exists()
    Path("full").unlink()
    assert parallel(files, "-j", "2", HILLDALE_PROGRAM=os.path.abspath("bin/faulty")).returncode == 0
    assert Path("table.csv").read_bytes() == Path("batch.csv").read_bytes()
    assert not list(Path().glob("table.csv.rows*"))


def standing_in_ssh(shell: str) -> None:
    """An ssh that runs its command here, with the login shell that a machine would give it."""
    skip = 'while [ "$1" != there ]; do shift; done\nshift\n[ "$1" != -- ] || shift\n'
    standing_in("ssh", f'{skip}echo "$@" >>asked-over-ssh\nSHELL={shell} exec sh -c "$*"\n')


def parallel_over_ssh(files: list[str]) -> subprocess.CompletedProcess[bytes]:
    return parallel(files, "--sshlogin", "2/there", "--workdir", os.getcwd(), "--env", "HILLDALE_PROGRAM")


@needs("parallel", "parallel")
def test_parallel_over_ssh(files: list[str]) -> None:
    standing_in_ssh("/bin/sh")
    ran = parallel_over_ssh(files)
    assert ran.returncode == 0, ran.stderr
    assert Path("asked-over-ssh").exists()
    assert Path("table.csv").read_bytes() == Path("batch.csv").read_bytes()


@needs("parallel", "parallel")
def test_parallel_tells_when_a_machine_ran_nothing(files: list[str]) -> None:
    standing_in_ssh("")
    ran = parallel_over_ssh(files)
    assert ran.returncode == 1 and b"was not written" in ran.stderr
    assert not Path("table.csv").exists()
    standing_in_ssh("/bin/sh")
    assert parallel_over_ssh(files).returncode == 0
    assert Path("table.csv").read_bytes() == Path("batch.csv").read_bytes()


def called(*words: str, folder: str = "parts") -> subprocess.CompletedProcess[str]:
    config = ["--config", "job=job.toml", f"folder={folder}", "table=table.csv"]
    call = ["snakemake", "-s", str(RECIPES / "snakemake" / "Snakefile"), *words, *config]
    return subprocess.run(call, env=with_bin(), capture_output=True, text=True, check=False)


def snakemake(*words: str) -> str:
    ran = called(*words)
    assert ran.returncode == 0, ran.stderr
    return ran.stderr


@needs("snakemake", "snakemake")
def test_snakemake_on_slurm_and_here_asks_what_changed(files: list[str]) -> None:
    standing_in("sbatch", 'for last; do :; done\necho "$@" >>submitted\nsh "$last" >/dev/null 2>&1 &\necho $!\n')
    snakemake(
        "--profile", str(RECIPES / "snakemake" / "slurm"), "--latency-wait", "5", "--max-status-checks-per-second", "1"
    )
    assert Path("table.csv").read_bytes() == Path("batch.csv").read_bytes()
    assert "--cpus-per-task=1" in Path("submitted").read_text()
    Path("parts/part-003.sdf").write_bytes(surface(4000))
    told = snakemake("--cores", "2")
    assert re.search(r"^row +1 ", told, re.M)
    main(["batch", "job.toml", *files, "-o", "batch.csv", "--workers", "1"])
    assert Path("table.csv").read_bytes() == Path("batch.csv").read_bytes()


@needs("snakemake", "snakemake")
def test_snakemake_on_a_folder_without_files(files: list[str]) -> None:
    Path("empty").mkdir()
    ran = called("--cores", "1", folder="empty")
    assert ran.returncode == 1 and "empty: no files" in ran.stderr and not Path("table.csv").exists()


@pytest.fixture
def dask(files: list[str]) -> Iterator[tuple[str, list[subprocess.Popen[bytes]]]]:
    """The address of a scheduler, and its two workers."""
    with socket.socket() as free:
        free.bind(("127.0.0.1", 0))
        address = f"tcp://127.0.0.1:{free.getsockname()[1]}"
    environment = os.environ | {"PYTHONPATH": str(RECIPES.parent / "src")}

    def start(*words: str) -> subprocess.Popen[bytes]:
        call = [sys.executable, "-m", "distributed.cli.dask_" + words[0], *words[1:], "--no-dashboard"]
        return subprocess.Popen(call, env=environment, stdout=subprocess.DEVNULL, stderr=subprocess.DEVNULL)

    alone = ("--nthreads", "1", "--no-nanny")
    started = [start("scheduler", "--host", "127.0.0.1", "--port", address.rpartition(":")[2])]
    started += [start("worker", address, *alone, "--local-directory", f"dask-{number}") for number in range(2)]
    yield address, started[1:]
    for process in started:
        process.kill()
        process.wait()


@pytest.mark.skipif(
    importlib.util.find_spec("distributed") is None,
    reason="dask.distributed is not installed: apt-get install python3-distributed",
)
def test_dask_with_a_worker_that_is_killed(files: list[str], dask: tuple[str, list[subprocess.Popen[bytes]]]) -> None:
    address, workers = dask
    many = [*files, *(f"parts/../{file}" for file in files), *(f"./{file}" for file in files)]
    main(["batch", "job.toml", *many, "-o", "batch.csv", "--workers", "1"])
    lab = str(RECIPES.parents[1] / "hilldale-lab")
    call = subprocess.Popen([lab, "batch", "job.toml", *many, "-o", "table.csv", "--dask", address])
    for _ in range(2000):
        if call.poll() is not None or Path("table.csv.partial").exists() and Path("table.csv.partial").stat().st_size:
            break
        time.sleep(0.01)
    workers[0].kill()
    assert call.wait(timeout=120) == 1
    assert Path("table.csv").read_bytes() == Path("batch.csv").read_bytes()


@pytest.mark.skipif(
    importlib.util.find_spec("distributed") is None,
    reason="dask.distributed is not installed: apt-get install python3-distributed",
)
def test_dask_with_no_scheduler(
    files: list[str], monkeypatch: pytest.MonkeyPatch, capsys: pytest.CaptureFixture[str]
) -> None:
    monkeypatch.setattr("hilldale_lab.dask_workers.SECONDS", 1)
    assert main(["batch", "job.toml", *files, "-o", "table.csv", "--dask", "tcp://127.0.0.1:9"]) == 127
    assert "no scheduler answers at tcp://127.0.0.1:9" in capsys.readouterr().err
