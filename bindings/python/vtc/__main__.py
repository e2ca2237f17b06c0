"""The command line of `vtc`."""

import sys

from . import main

sys.exit(main())
