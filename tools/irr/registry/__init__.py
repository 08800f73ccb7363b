"""A registry asked over HTTP: its queries, answers, submissions and refusals."""
