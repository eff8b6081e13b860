"""Length-encoded numbers and strings by the document, and the signed duration, for the models beside this file. Refusals by their numbers: 8 short, 9 bad lead,
11 out of range."""


class Refused(Exception):
    def __init__(self, number):
        self.number = number


def need(s, at, n):
    """The n bytes at a place."""
    if len(s) < at + n:
        raise Refused(8)
    return s[at:at + n]


def number(s, at, n):
    """The number of n bytes at a place, low byte first, and the place behind it."""
    return int.from_bytes(need(s, at, n), 'little'), at + n


def length(s, at):
    """The length-encoded number at a place, and the place behind it."""
    lead, at = number(s, at, 1)
    if lead < 251:
        return lead, at
    if lead in (0xFB, 0xFF):
        raise Refused(9)
    return number(s, at, {0xFC: 2, 0xFD: 3, 0xFE: 8}[lead])


def string(s, at):
    """The place and the length of the string at a place; it ends where both together say."""
    n, at = length(s, at)
    need(s, at, n)
    return at, n


def written_length(n):
    """The shortest form of a number."""
    if n < 251:
        return bytes([n])
    lead, size = (0xFC, 2) if n < 1 << 16 else (0xFD, 3) if n < 1 << 24 else (0xFE, 8)
    return bytes([lead]) + n.to_bytes(size, 'little')


def written_string(b):
    return written_length(len(b)) + b


# The most that MySQL's TIME has in its hours, minutes, seconds and microseconds, and in all: 34 days 22:59:59.000000 (request W4).
MOST_FIELDS = (23, 59, 59, 999_999)


def microseconds(neg, days, hours, minutes, seconds, micros):
    """The signed duration of a time's fields."""
    size = (((days * 24 + hours) * 60 + minutes) * 60 + seconds) * 1000000 + micros
    most = (((34 * 24 + 22) * 60 + 59) * 60 + 59) * 1000000
    if size > most or any(field > limit for field, limit in zip((hours, minutes, seconds, micros), MOST_FIELDS)):
        raise Refused(11)
    return [-size if neg else size]


def answer(reader, *asked):
    """What a reader answers behind the status 0, or the refusal's number alone."""
    try:
        return [0, *reader(*asked)]
    except Refused as r:
        return [r.number]
