"""The plain program as a command."""
import os
import sys

sys.dont_write_bytecode = True
sys.path.insert(0, os.path.dirname(os.path.dirname(os.path.abspath(__file__))))
from plain.command import main  # noqa: E402

sys.exit(main(sys.argv[1:]))
