"""Registries of this machine: databases, replicas, past states, temporary ones."""
