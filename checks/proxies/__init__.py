"""Replicas and proxies beside a registry."""
