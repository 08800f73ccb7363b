"""Files, settings, services and mail of this machine."""
