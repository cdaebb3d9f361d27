"""`python3 -m desk`: the command `desk`."""
import sys

from .command.main import main

if __name__ == '__main__':
    sys.exit(main(sys.argv[1:]))
