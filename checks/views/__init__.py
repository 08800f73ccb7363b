"""Views: several registries as one."""
