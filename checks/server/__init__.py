"""The program while it serves: clients, stops, connections."""
