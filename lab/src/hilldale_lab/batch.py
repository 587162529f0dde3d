"""One job for many files: which worker asks which file, and the rows in the order of the files."""

from __future__ import annotations

import multiprocessing
import os
import signal
import threading
from collections.abc import Callable, Generator, Sequence
from concurrent.futures import Future, ProcessPoolExecutor, as_completed
from concurrent.futures.process import BrokenProcessPool
from contextlib import closing

from hilldale_lab.errors import LabError, one_line
from hilldale_lab.file_rows import Done, ask_file, columns_of
from hilldale_lab.job import Job
from hilldale_lab.partial import Partial
from hilldale_lab.surface_file import replace_file
from hilldale_lab.table import check_name, table_bytes

Workers = Callable[[Job, Sequence[str]], Generator[Done, None, None]]
Tell = Callable[[int, int], None]


class MachineFault(LabError):
    """A fault of the machine or of the program: no row is made of it, and the work stops."""


def processors() -> int:
    """How many processors this process may use."""
    return len(os.sched_getaffinity(0))


def make_table(
    job: Job, files: Sequence[str], table: str, workers: Workers, is_resumed: bool, is_excel: bool, tell: Tell
) -> list[list[str]]:
    """Writes the table of a job when all its rows are there, and gives them in the order of the files.

    workers: gives the rows as they are done. tell: is called with how many are done, and how many there are. Raises
    MachineFault, after which, as after KeyboardInterrupt, the rows that are done stand in TABLE.partial.
    """
    check_name(table, is_excel)
    columns, distinct = columns_of(job), list(dict.fromkeys(files))
    with Partial(table, job) as partial:
        if is_resumed:
            partial.resume(distinct)
        else:
            partial.start()
        tell(len(partial.rows), len(distinct))
        waiting = [file for file in distinct if file not in partial.rows]
        with closing(workers(job, waiting)) as found:
            for done in found:
                if done.fault:
                    raise MachineFault(done.fault, done.status)
                partial.add(done)
                tell(len(partial.rows), len(distinct))
        rows = [partial.rows[file] for file in files]
        replace_file(table, table_bytes(table, columns, rows, is_excel))
        partial.remove()
    return rows


def by_processes(count: int, reports: str | None = None) -> Workers:
    """Workers on this machine: so many processes, each of which asks one file at a time. reports: as of `ask_file`."""

    def work(job: Job, files: Sequence[str]) -> Generator[Done, None, None]:
        if not files:
            return
        context = multiprocessing.get_context("fork")
        pool = ProcessPoolExecutor(min(count, len(files)), context, _begin_worker, (job, reports))
        futures = [pool.submit(_ask, file) for file in files]
        try:
            for future in as_completed(futures):
                yield future.result()
            pool.shutdown()
        except BrokenProcessPool as error:
            raise MachineFault(_ended_at(files, futures, count), 7) from error
        finally:
            pool.shutdown(wait=False, cancel_futures=True)
            for process in multiprocessing.active_children():
                process.terminate()

    return work


def _ended_at(files: Sequence[str], futures: Sequence[Future[Done]], count: int) -> str:
    """Which files were worked on when a worker was ended from outside."""
    lost = [file for file, future in zip(files, futures) if future.done() and future.exception() is not None]
    names = ", ".join(map(one_line, lost[:count]))
    return f"a worker was ended from outside, as the system does where memory runs out, at one of: {names}"


_given: tuple[Job, str | None]


def _begin_worker(job: Job, reports: str | None) -> None:
    """A worker leaves Ctrl-C to the first process, and ends with it, however that ends."""
    global _given
    _given = job, reports
    signal.signal(signal.SIGINT, signal.SIG_IGN)
    threading.Thread(target=_end_with_parent, daemon=True).start()


def _end_with_parent() -> None:
    parent = multiprocessing.parent_process()
    if parent is not None:
        parent.join()
        os._exit(1)


def _ask(file: str) -> Done:
    job, reports = _given
    return ask_file(job, file, None, reports)
