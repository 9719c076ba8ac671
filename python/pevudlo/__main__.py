"""Runs a command of the package."""

import sys

from pevudlo.cli import run

sys.exit(run())
