"""Unit tests of the tool `irr`, module by module."""
