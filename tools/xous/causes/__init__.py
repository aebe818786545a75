"""What led to a failure: the last turns of a run, what each process ended with, and who waits for whom."""
