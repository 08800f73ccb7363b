"""The door: dialects, fairness, submissions, what it tells, and what it costs."""
