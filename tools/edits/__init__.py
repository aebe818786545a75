"""The wrong bodies of the crates: their edits, the functions in which they stand, and the checks that try them."""
