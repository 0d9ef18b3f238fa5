"""Rights that are taken away, as the kernel tells of it, beside the mirror's turns."""
