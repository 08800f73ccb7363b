"""Filters and lists, read by routers."""
