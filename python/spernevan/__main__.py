"""`python3 -m spernevan`."""

from .command import run

run()
