"""Workers of dask.distributed, on this machine or on others that see the same files under the same names."""

from __future__ import annotations

import os
from asyncio import CancelledError
from collections.abc import Generator, Sequence
from typing import Any

from hilldale_lab import program
from hilldale_lab.batch import MachineFault, Workers
from hilldale_lab.errors import LabError
from hilldale_lab.file_rows import Done, ask_file
from hilldale_lab.job import Job
from hilldale_lab.packages import require

CHUNK = 8
SECONDS = 20
TRIES = 5


def by_dask(address: str, reports: str | None = None) -> Workers:
    """Hands chunks of files to the workers of a scheduler. The chunk of a worker that is lost goes to another one.

    Raises MissingPackage; and, when it works, MachineFault where no scheduler answers, a worker has another program, or
    a chunk lost its worker five times.
    """
    require("distributed")

    def work(job: Job, files: Sequence[str]) -> Generator[Done, None, None]:
        from distributed import Client

        try:
            client = Client(address, timeout=SECONDS, set_as_default=False)
        except (OSError, ValueError) as error:
            raise MachineFault(f"no scheduler answers at {address}: {error}", 127) from error
        with client:
            yield from _rows(client, job, files, reports)

    return work


def _rows(client: Any, job: Job, files: Sequence[str], reports: str | None) -> Generator[Done, None, None]:
    from distributed import KilledWorker, as_completed

    from distributed.comm import CommClosedError

    digest, folder = program.find().sha256, None if reports is None else os.path.abspath(reports)
    chunks = [list(files[at : at + CHUNK]) for at in range(0, len(files), CHUNK)]
    futures = [
        client.submit(
            ask_chunk, job, digest, [(file, os.path.abspath(file)) for file in chunk], folder, pure=False, retries=TRIES
        )
        for chunk in chunks
    ]
    try:
        for future in as_completed(futures, loop=client.loop):
            yield from future.result()
            future.release()
    except KilledWorker as error:
        raise MachineFault(f"a chunk of files lost its worker again and again: {error}", 7) from error
    except (CommClosedError, CancelledError, OSError) as error:
        raise MachineFault(f"the scheduler of dask is lost: {error}", 127) from error
    finally:
        client.cancel(futures)


def ask_chunk(job: Job, digest: str, files: Sequence[tuple[str, str]], reports: str | None) -> list[Done]:
    """What a worker does: asks some files, each by its name in the table and its place. digest: of the program that the
    worker has to have too."""
    try:
        if program.find().sha256 != digest:
            return [Done("", [], "a worker of dask has another program hilldale", 127)]
    except (LabError, OSError) as error:
        return [Done("", [], f"a worker of dask has no program: {error}", 127)]
    return [ask_file(job, file, place, reports) for file, place in files]
