"""Mount sheets as the bytes of a file."""
import struct


def record(boat, edition, side):
    return struct.pack('<IIB7x', boat, edition, side)


def editions(boat, count):
    """All editions of a boat, on starboard and port by turns."""
    return b''.join(record(boat, number + 1, number % 2) for number in range(count))


BOOK = record(7, 1, 0) + record(7, 2, 1) + record(8, 1, 1)
