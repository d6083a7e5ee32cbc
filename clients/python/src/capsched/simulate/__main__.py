"""`python3 -m capsched.simulate`."""
import sys

from .command import main

sys.exit(main())
