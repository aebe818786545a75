"""Transcripts as charts: SVG, a page for a browser, or a trace for Perfetto."""
