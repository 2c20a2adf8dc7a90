"""The lab as a program: `lab` runs this folder."""
import sys
from pathlib import Path

sys.dont_write_bytecode = True
sys.path[0] = str(Path(__file__).resolve().parent.parent)

if sys.version_info < (3, 9):
    sys.exit("lab: Python 3.9 or later is needed")

from nvmelab.main import main

main(sys.argv[1:])
