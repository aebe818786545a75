"""Runs of the program: event files, states at any step, and searches of orders."""
