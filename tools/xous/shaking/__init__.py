"""Random orders of an image's threads: schedules by seeds, what is seen of each run, small event files, and findings as a table."""
