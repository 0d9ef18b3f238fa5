"""Why a user is told of a file, or isn't: the kernel's answer beside the mirror's."""
