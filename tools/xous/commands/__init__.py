"""The commands: each module has the words of one tool, and what it does."""
