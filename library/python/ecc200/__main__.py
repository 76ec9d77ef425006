# PYTHON_ARGCOMPLETE_OK
"""python3 -m ecc200 is the command ecc200."""
import sys

from .command import main

sys.exit(main())
