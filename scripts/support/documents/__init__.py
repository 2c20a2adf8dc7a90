"""Checks of the repository's documents against its files."""
