"""Boot images: the format, reading, and making one of programs."""
