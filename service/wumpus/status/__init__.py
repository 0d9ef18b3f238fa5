"""What mirror and service tell of themselves, for administrators and their monitoring."""
