"""Views: several registries as one, of which the first that has an object wins."""
