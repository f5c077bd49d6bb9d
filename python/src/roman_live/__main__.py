"""`python3 -m roman_live` is `roman-live`."""

import sys

from .command_line import main

sys.exit(main())
