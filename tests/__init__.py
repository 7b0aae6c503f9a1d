"""Tries the program from outside: `tests/run --list` has the suites."""
