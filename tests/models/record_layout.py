"""The words of a record and what they take up, by documents 01 and 02."""

SHAPE, COLOUR, REPLICA, NUMBER = range(4)  # the words of its header; the last is its birth number
HEADER = 4  # words before its fields


def size(r, p):
    """The words of a record with so many reference and plain fields."""
    return HEADER + r + p


def size_of(shape):
    """The words of a record with this word 0."""
    return size(*divmod(shape, 256))


def least_list(length):
    """The words that the list must have where a half has so many: one for every four."""
    return length // 4
