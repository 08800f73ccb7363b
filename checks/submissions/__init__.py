"""Submissions: worked cases, and what `irr` says of them beside what the program decides."""
