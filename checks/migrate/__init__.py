"""Dumps of other registries, imported."""
