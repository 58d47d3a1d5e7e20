"""Runs the command when the package is run by its name."""

import sys

from stilfloor.witness.command import main

sys.exit(main())
