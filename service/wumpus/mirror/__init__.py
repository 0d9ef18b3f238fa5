"""The mirror: walks real trees, and feeds the program what changed."""
