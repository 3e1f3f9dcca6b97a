"""`python3 -m idn2_registry`, and the start of the one file `idn2-registry`."""

import sys

from .command import main

if __name__ == "__main__":
    sys.exit(main())
