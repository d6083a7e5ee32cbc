"""`python3 -m capsched.exporter`: the command `capsched-exporter`."""
import sys

from . import main

sys.exit(main())
