"""python3 -m fontcrunch IN.ttf OUT.ttf: crunches a whole TrueType font."""

import sys

from ._command import main

if __name__ == "__main__":
    sys.exit(main(sys.argv[1:]))
