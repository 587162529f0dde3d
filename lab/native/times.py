"""times.py PROGRAM [CALLS]: seconds of 1,000 calls on a surface of 256 by 256 independent heights, by the program in a process for
each, and by the library that HILLDALE_LIBRARY names."""

import random
import sys
import time
from pathlib import Path

from hilldale_lab import native
from hilldale_lab.program import Program

SIZE = 256
HEAD = """aBCR-1.0
ManufacID  = times
CreateDate = 010120260000
ModDate    = 010120260000
NumPoints  = {size}
NumProfiles = {size}
Xscale     = 1e-6
Yscale     = 1e-6
Zscale     = 1e-9
Zresolution = -1
Compression = 0
DataType   = 6
CheckType  = 0
*
{heights}
*
"""


def main() -> None:
    draws = random.Random(7)
    rows = (" ".join(str(draws.randrange(1 << 20)) for _ in range(SIZE)) for _ in range(SIZE))
    surface = HEAD.format(size=SIZE, heights="\n".join(rows)).encode()
    calls = int(sys.argv[2]) if len(sys.argv) > 2 else 1000
    library = native.Library(native.chosen_path() or sys.exit("HILLDALE_LIBRARY names no library"))
    asked = {"process": Program(Path(sys.argv[1])).run, "library": library.run}
    for script in (b"info\n", b"param S10z\n", b"prune D 5%\n"):
        for name, run in asked.items():
            before = time.perf_counter()
            for _ in range(calls):
                ran = run(surface, script)
            seconds = time.perf_counter() - before
            print(f"{script.decode().strip()}: {name} {seconds:.2f} s, status {ran.status}, {len(ran.output)} bytes")


main()
