"""Transcripts: their lines as records, what follows from them, and their laws."""
