"""What is wrong with an input."""


class LabError(Exception):
    """One line that names the file and says what is wrong with it.

    The launcher writes it to standard error and ends with status 2.
    """
