"""Drivers of tests: each is a module that is run by `python3 -m tests.NAME` from the folder above this one (README.md)."""
