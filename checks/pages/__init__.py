"""Pages, manuals and sources as they are written."""
