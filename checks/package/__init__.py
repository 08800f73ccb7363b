"""The package, what is installed, and releases."""
