"""The written form of a number (01, "Numbers and table"): groups of seven bits, lowest first."""

MOST_NUMBER = 65535


def written(value):
    """The bytes of a number, the fewest that hold it."""
    groups = []
    while value >= 128:
        groups.append(value % 128 + 128)
        value //= 128
    groups.append(value)
    return bytes(groups)


def read(data, place):
    """The number at a place and the place behind it; a ValueError says what is wrong."""
    value = 0
    for i in range(3):
        if place + i >= len(data):
            raise ValueError("the bytes end within the table")
        byte = data[place + i]
        value += (byte % 128) << (7 * i)
        if byte < 128:
            if (byte == 0 and i > 0) or value > MOST_NUMBER:
                break
            return value, place + i + 1
    raise ValueError("this is not the written form of a number")
