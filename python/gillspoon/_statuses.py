"""The statuses that the command ends with, and an error that has one."""

DONE, REFUSED, WRONG_WORDS, UNREADABLE = range(4)


class Failure(Exception):
    """An error with the status that the command ends with."""

    def __init__(self, status: int, text: str) -> None:
        # both are arguments, so that another process can hand it on
        super().__init__(status, text)
        self.status, self.text = status, text

    def __str__(self) -> str:
        return self.text
