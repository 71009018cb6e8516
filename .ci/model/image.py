"""MCUboot images."""

from collections import namedtuple
from hashlib import sha256

MAGIC = bytes.fromhex("3db8f396")
NOT_BOOTABLE, ENCRYPTED = 0x10, 0x04 | 0x08
HEADER, SMALLEST = 32, 32
PROTECTED, PLAIN, HASH = 0x6908, 0x6907, 0x10

Image = namedtuple("Image", "version bootable hash")


def number(held, at, width):
    return int.from_bytes(held[at:at + width], "little")


def version_of(held):
    """The text of the version in a header."""
    build = number(held, 24, 4)
    return f"{held[20]}.{held[21]}.{number(held, 22, 2)}" + (f".{build}" if build else "")


def entries_of(held, at, end):
    """The entries that fill a range exactly, each with its type and bytes; None where they do not."""
    entries = []
    while at < end:
        length = number(held, at + 2, 2)
        if at + 4 + length > end:
            return None
        entries.append((number(held, at, 2), held[at + 4:at + 4 + length]))
        at += 4 + length
    return entries


def area_of(held, at, magic):
    """The entries of the area with this magic at a place; None where there is no such area."""
    total = number(held, at + 2, 2)
    if at + 4 > len(held) or number(held, at, 2) != magic or total < 4 or at + total > len(held):
        return None
    return entries_of(held, at + 4, at + total)


def good_image(held):
    """The image with which the bytes begin, with a right hash; None where there is none."""
    if len(held) < SMALLEST or held[:4] != MAGIC or number(held, 8, 2) < HEADER or number(held, 16, 4) & ENCRYPTED:
        return None
    protected = number(held, 10, 2)
    plain_end = number(held, 8, 2) + number(held, 12, 4)
    covered = plain_end + protected
    if covered + 4 > len(held):
        return None
    if protected and (number(held, plain_end + 2, 2) != protected or area_of(held, plain_end, PROTECTED) is None):
        return None
    hashes = [held for kind, held in area_of(held, covered, PLAIN) or [] if kind == HASH]
    if len(hashes) != 1 or hashes[0] != sha256(held[:covered]).digest():
        return None
    return Image(version_of(held), not number(held, 16, 4) & NOT_BOOTABLE, hashes[0])


def make_image(payload, version=(1, 0, 0), build=0, flags=0):
    """An image of a payload with nothing but its hash behind it."""
    header = MAGIC + bytes(4) + (32).to_bytes(2, "little") + bytes(2) + len(payload).to_bytes(4, "little")
    header += flags.to_bytes(4, "little") + bytes(version[:2]) + version[2].to_bytes(2, "little")
    held = header + build.to_bytes(4, "little") + bytes(4) + payload
    return held + bytes.fromhex("0769280010002000") + sha256(held).digest()


DEFAULT_IMAGE = make_image(bytes(range(8)))
