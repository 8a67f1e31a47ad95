"""The tests of `./saxtegun`, of dev/ and of bench/: `python3 -B -m unittest discover`, here or with `-s tests`."""
import sys
from pathlib import Path

sys.path.insert(0, str(Path(__file__).resolve().parent))
