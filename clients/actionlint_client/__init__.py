"""Clients of actionlint: they run the linter and show its faults in editors and in reports of other formats."""
import sys

if sys.version_info < (3, 9):
    print("actionlint: the clients need Python 3.9 or later, and %s is older" % sys.executable, file=sys.stderr)
    sys.exit(3)
