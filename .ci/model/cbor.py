"""The subset of CBOR: maps with text keys are read, and values are written in the shortest form."""

OTHER = object()  # a value that no known key may have: a tag, a float, another simple value, a map with other keys
LEVELS = 8
BREAK = 0xFF
CUTS = (1, 2, 4, 8)  # bytes of the argument for low bits 24 to 27


class Refused(Exception):
    """The bytes are no map of the subset."""


def head(data, at):
    """The major type, the low bits and the argument of the head at a place, and the place after it.

    The argument is None where a list or map has no count."""
    if at >= len(data):
        raise Refused
    major, low = data[at] >> 5, data[at] & 31
    if low < 24:
        return major, low, low, at + 1
    if low < 28:
        after = at + 1 + CUTS[low - 24]
        if after > len(data):
            raise Refused
        return major, low, int.from_bytes(data[at + 1:after], "big"), after
    if low == 31 and major in (4, 5):
        return major, low, None, at + 1
    raise Refused


def string(data, at, major, length):
    """A byte string, or a text."""
    if length > len(data) - at:
        raise Refused
    held = data[at:at + length]
    if major == 2:
        return held, at + length
    try:
        return held.decode("utf-8"), at + length
    except UnicodeDecodeError:
        raise Refused from None


def simple(low, argument):
    """The value of a head of the last major type."""
    if low == 24 and argument < 32:
        raise Refused
    return {20: False, 21: True, 22: None}.get(low, OTHER)


def items(data, at, count, each, level):
    """The items of a list or map of `count` times `each` of them, or up to its break, and the place after them."""
    held = []
    while count is None or count > 0:
        if count is None:
            if at < len(data) and data[at] == BREAK:
                return held, at + 1
        else:
            count -= 1
        for _ in range(each):
            value, at = item(data, at, level)
            held.append(value)
    return held, at


def pairs_of(held):
    """The map of keys and values by turns; OTHER where a key is no text or comes twice."""
    keys = held[::2]
    if not all(isinstance(key, str) for key in keys) or len(set(keys)) < len(keys):
        return OTHER
    return dict(zip(keys, held[1::2]))


def item(data, at, level):
    """The value at a place and the place after it; `level` is that of the list, map or tag that holds it."""
    major, low, argument, at = head(data, at)
    if major == 0:
        return argument, at
    if major == 1:
        return -1 - argument, at
    if major in (2, 3):
        return string(data, at, major, argument)
    if major == 7:
        return simple(low, argument), at
    if level == LEVELS:
        raise Refused
    if major == 6:
        return OTHER, item(data, at, level + 1)[1]
    held, at = items(data, at, argument, major - 3, level + 1)
    return held if major == 4 else pairs_of(held), at


def read_map(data):
    """The pairs of the map that the bytes are; no bytes are the empty map."""
    if not data:
        return {}
    if data[0] >> 5 != 5:
        raise Refused
    _, _, count, at = head(data, 0)
    pairs = {}
    while count is None or count > len(pairs):
        if count is None and at < len(data) and data[at] == BREAK:
            at += 1
            break
        key, at = item(data, at, 1)
        if not isinstance(key, str) or key in pairs:
            raise Refused
        pairs[key], at = item(data, at, 1)
    if at != len(data):
        raise Refused
    return pairs


def write_head(major, argument):
    """The shortest head."""
    if argument < 24:
        return bytes([major << 5 | argument])
    width = next(n for n in range(4) if argument < 1 << 8 * CUTS[n])
    return bytes([major << 5 | 24 + width]) + argument.to_bytes(CUTS[width], "big")


def write(value):
    """The shortest form of a map, list, text, byte string, truth value, null or whole number."""
    if value is None:
        return b"\xf6"
    if isinstance(value, bool):
        return b"\xf5" if value else b"\xf4"
    if isinstance(value, int):
        return write_head(0, value) if value >= 0 else write_head(1, -1 - value)
    if isinstance(value, bytes):
        return write_head(2, len(value)) + value
    if isinstance(value, str):
        held = value.encode("utf-8")
        return write_head(3, len(held)) + held
    if isinstance(value, list):
        return write_head(4, len(value)) + b"".join(map(write, value))
    return write_head(5, len(value)) + b"".join(write(key) + write(held) for key, held in value.items())
