"""What `tools/tell` is made of: the formats of the program `eid`, read and put into words."""


class Refused(Exception):
    """An input that cannot be told; its text is the one line that says why."""
