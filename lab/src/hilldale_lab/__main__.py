"""`python3 -m hilldale_lab`."""

import sys

from hilldale_lab.cli import main

sys.exit(main())
