"""The client: searches as the user who runs it."""
