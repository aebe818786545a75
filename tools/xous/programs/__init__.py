"""Programs as ELF files: segments as sections of a process, symbols, and lines of the source."""
