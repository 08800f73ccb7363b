"""A whole machine: systemd, timers, power cuts."""
