"""Mirrors of a registry: serials, NRTM, dumps with serials, and a mirror that follows."""
