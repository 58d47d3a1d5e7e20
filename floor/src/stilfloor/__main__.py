"""`python3 -m stilfloor` is the command `stilfloor`."""

import sys

from stilfloor.cli import main

sys.exit(main())
