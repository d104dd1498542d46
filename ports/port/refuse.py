"""How a step stops: one line that says what it did not understand. Bad input ends with status 2, a disagreement with 1."""


class BadInput(Exception):
    """A target, a kit or a tool that cannot be used; nothing was written."""


class Refused(Exception):
    """A header, a source or a module that is not understood, or does not agree with the others."""
