"""The page: a search of one user in her own browser."""
