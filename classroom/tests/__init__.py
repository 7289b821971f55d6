"""The tests of the command for a class."""
