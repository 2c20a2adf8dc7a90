"""The tests of the built programs, which scripts/test runs."""
