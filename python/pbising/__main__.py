"""`python -m pbising`."""
import sys

from .cli import main

sys.exit(main())
