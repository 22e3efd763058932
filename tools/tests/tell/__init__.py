"""The tests of `tools/tell`."""
