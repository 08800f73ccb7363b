"""Databases as other programs read and change them."""
