"""ask.py SURFACE SCRIPT: prints the answers to a script on a surface, by the library that HILLDALE_LIBRARY names."""

import sys
from pathlib import Path

from hilldale_lab.native import Library, chosen_path

library = Library(chosen_path() or sys.exit("HILLDALE_LIBRARY names no library"))
surface, script = (Path(name).read_bytes() for name in sys.argv[1:])
ran = library.run(surface, script)
sys.stdout.buffer.write(ran.output)
sys.exit(ran.status)
