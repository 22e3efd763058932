"""The tests of `tests/run` and `tests/index`."""
