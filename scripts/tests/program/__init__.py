"""Runs of the built program, with their expected results."""
