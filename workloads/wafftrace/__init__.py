"""Logs of real systems as traces of waff."""

# That of the program, which dist/version has.
VERSION = "0.1.0"
