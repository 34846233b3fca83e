"""Readers and makers of the program's files, and the Python of the commands in the folder above this one (README.md)."""
