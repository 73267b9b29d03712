"""What both tools say the same: how an image's name is written, and the limits of addresses."""

WORD = 4
TOP = 2**64 - WORD
LONGEST_NAME = 255


def visible(name):
    """The bytes of a name with each byte outside visible ASCII, and `%`, written as `%` and two
    hexadecimal digits, so that two names stay two. None where that is empty or over 255 bytes."""
    if any(byte < 33 or byte > 126 or byte == 37 for byte in name):
        name = b"".join(
            b"%%%02x" % byte if byte < 33 or byte > 126 or byte == 37 else bytes([byte])
            for byte in name
        )
    return name if 1 <= len(name) <= LONGEST_NAME else None


def words_around(start, end):
    """The range from start to end, widened to multiples of 4 and cut at the greatest address."""
    return start // WORD * WORD, min(-(-end // WORD) * WORD, TOP)
