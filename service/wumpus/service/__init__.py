"""The service: holds one program, and answers the users of the machine."""
