"""Bytes of a file as text, and text as it is shown: on a terminal, in a message, in a line."""


def text_of(text: bytes) -> str:
    """The text of bytes of a file: UTF-8, or else Latin-1."""
    try:
        return text.decode("utf-8")
    except UnicodeDecodeError:
        return text.decode("latin-1")


def is_utf_8(text: bytes) -> bool:
    """Whether the bytes are UTF-8.

    >>> is_utf_8(b"M\\xc3\\xbcller"), is_utf_8(b"M\\xfcller")
    (True, False)
    """
    try:
        text.decode("utf-8")
    except UnicodeDecodeError:
        return False
    return True


def shown(value: bytes) -> str:
    """The text of a tag's value, without control characters.

    >>> shown(b"M\\xfcller")
    'M\xfcller'
    """
    return printable(text_of(value))


def printable(text: str) -> str:
    """The text with a mark for each control character, which a terminal could take as a command.

    >>> printable("a\\x1b[2Jb")
    'a\ufffd[2Jb'
    """
    if text.isprintable():
        return text
    import unicodedata
    return "".join(it if it == "\t" or unicodedata.category(it)[0] != "C" else "\ufffd"
                   for it in text)


def in_a_line(name: str) -> str:
    """The name of a file without line ends or other control characters.

    >>> in_a_line("a\\nb.pgn")
    'a\\\\nb.pgn'
    """
    if name.isprintable():
        return name
    import unicodedata
    return "".join(it if unicodedata.category(it) not in ("Cc", "Cf") else
                   it.encode("unicode_escape").decode("ascii") for it in name)
