"""The check of scripts."""
