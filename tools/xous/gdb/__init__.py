"""gdb's remote protocol over the runs of the program (docs/debugging.md)."""
