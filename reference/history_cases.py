"""Prints the histories of histories.py, one case per line.

    python3 reference/history_cases.py

README.md tells the line format.
"""

import os
import sys

sys.path.insert(0, os.path.dirname(os.path.abspath(__file__)))

from histories import history_cases

if __name__ == "__main__":
    # The same line ends on every system.
    sys.stdout.reconfigure(newline="\n")
    history_cases()
