"""`python -m vienghulac`: the command line."""

import sys

from ._command import main

sys.exit(main())
