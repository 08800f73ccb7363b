"""Words, settings, files and streams that the program is given, and how it ends."""
