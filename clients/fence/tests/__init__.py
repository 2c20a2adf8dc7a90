"""The tests of the fence agent."""
