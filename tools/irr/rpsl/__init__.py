"""RPSL as the program reads it (RFC 2622): syntax, keys, spans, holders, hashes."""
