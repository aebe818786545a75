"""What makes a release of a tree whose gate passed: its record, its layout, its man pages and completions, and its packages."""
