"""Filters of what sets and AS numbers stand for."""
