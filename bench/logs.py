"""Makes the images of logs that the benches read."""

import struct

SECTOR = 512
WRITE = 4
MARK = 8
MARK_BYTES = 479


def writes(size, entries, sectors=WRITE):
    """The log in an image of so many bytes: writes of so many sectors, one behind the other, then the mark that ends it."""
    image = headed(size, entries)
    place = SECTOR
    for number in range(entries - 1):
        struct.pack_into("<QQQQ", image, place, number * sectors, sectors, 0, 0)
        image[place + SECTOR : place + (1 + sectors) * SECTOR] = b"\x5a" * (sectors * SECTOR)
        place += (1 + sectors) * SECTOR
    put_mark(image, place, b"dm-log-writes-end")
    return image


def marks(size):
    """The log in an image of so many bytes: marks as long as they may be, one a sector."""
    entries = size // SECTOR - 2
    image = headed(size, entries)
    for number in range(entries):
        text = b"mark %d " % number * MARK_BYTES
        put_mark(image, (1 + number) * SECTOR, text[:MARK_BYTES])
    return image


def headed(size, entries):
    image = bytearray(size)
    struct.pack_into("<QQQI", image, 0, 0x6A736677736872, 1, entries, SECTOR)
    return image


def put_mark(image, place, text):
    struct.pack_into("<QQQQ", image, place, 0, 0, MARK, len(text))
    image[place + 32 : place + 32 + len(text)] = text
