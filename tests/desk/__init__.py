"""The checks of tests/tools."""
