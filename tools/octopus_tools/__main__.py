"""`python3 -m octopus_tools`."""
import sys

from .cli import main

if __name__ == "__main__":
    sys.exit(main())
