"""What tests/promised stands on: when the plan of a terminal is honest for a chip, and the report that it is promised then."""
