"""`python3 -m tilugba` is `tilugba-desk`."""

import sys

from .cli import main

sys.exit(main())
