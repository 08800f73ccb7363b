"""Checks of the program and of what stands round it, by pytest: README.md says how they are run and
written."""
