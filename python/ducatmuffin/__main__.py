"""python3 -m ducatmuffin: the command `ducat`."""
import sys

from .cli import main

sys.exit(main())
