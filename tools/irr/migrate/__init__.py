"""Dumps of other registries made into one that irrdesk loads."""
