"""Lines, words, names and numbers of all texts, as docs/MANUAL.md has them, and how a reader refuses."""
import re

BLANKS = b"\t\r "
NAME = re.compile(rb"[A-Za-z_][A-Za-z0-9_]{0,31}\Z")
NUMBER = re.compile(rb"-?[0-9]+\Z")


class Refused(Exception):
    """The status and the line with which a command ends."""

    def __init__(self, status, line):
        super().__init__(line)
        self.status, self.line = status, line if isinstance(line, bytes) else line.encode()


def limit(word, count, bound):
    return Refused(8, f"limit {word}: {count} above {bound}")


def lines_of(text):
    """The lines with their numbers from 1: whole, and without their comment."""
    lines = text.split(b"\n")
    if lines[-1] == b"":
        lines.pop()
    return [(number, line.split(b"#", 1)[0]) for number, line in enumerate(lines, 1)]


def bad_byte(line):
    """The place of the first byte that may not stand in a text, or None."""
    for place, byte in enumerate(line):
        if not (0x21 <= byte <= 0x7E or byte in BLANKS):
            return place
    return None


def words_of(line):
    return [word for word in re.split(rb"[\t\r ]+", line) if word]


def is_name(word):
    return NAME.match(word) is not None


def number_of(word):
    """The number that the word is, within 64 bits, or None."""
    if not NUMBER.match(word):
        return None
    number = int(word)
    return number if -(2**63) <= number < 2**63 else None


def wrapped(number):
    """The number brought back to 64 bits with a sign."""
    return (number + 2**63) % 2**64 - 2**63
