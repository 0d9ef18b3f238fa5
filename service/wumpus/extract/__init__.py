"""The text of documents, made by processes that can do nothing else."""
