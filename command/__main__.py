"""Where ./keeper starts: finds the other parts by the folder above this one, and ends with their status."""
import pathlib
import sys

sys.path[0] = str(pathlib.Path(__file__).resolve().parent.parent)
from command.main import main

sys.exit(main(sys.argv[1:]))
