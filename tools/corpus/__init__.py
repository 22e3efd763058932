"""The cases of tests/: how they are read, and which kinds, rules and statuses their expected traces meet."""
