"""The tools of this repository. Each concept has a folder: images, programs, states, transcripts, runs, charts and gdb."""
