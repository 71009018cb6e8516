"""Packets, the meaning of requests, and the bytes of replies."""

from collections import namedtuple

from . import cbor

READ, WRITE = 0, 2
LARGEST_PACKET = 2048
LARGEST_NUMBER = 0xFFFFFFFF
OS, IMAGE, STATISTICS, SETTINGS, FILES = 0, 1, 2, 3, 8
INVALID_VALUE, NOT_SUPPORTED, VERSION_TOO_NEW = 3, 8, 13

Packet = namedtuple("Packet", "version operation group sequence command data")
Failure = namedtuple("Failure", "group number")  # the group is None for an error of the protocol

# Group, command and operation of each request, its name, and its keys with their kinds; a star marks a required key.
TABLE = {
    (OS, 0, READ): ("echo", "d*t"),
    (OS, 0, WRITE): ("echo", "d*t"),
    (OS, 5, WRITE): ("reset", ""),
    (OS, 6, READ): ("parameters", ""),
    (IMAGE, 0, READ): ("image_list", ""),
    (IMAGE, 0, WRITE): ("image_set", "hash:b confirm:f"),
    (IMAGE, 1, WRITE): ("upload", "image:u len:u off*u sha:b data*b upgrade:f"),
    (IMAGE, 5, WRITE): ("erase", "slot:u"),
    (STATISTICS, 0, READ): ("statistics", "name*t"),
    (STATISTICS, 1, READ): ("statistics_list", ""),
    (SETTINGS, 0, READ): ("setting_read", "name*t max_size:u"),
    (SETTINGS, 0, WRITE): ("setting_write", "name*t val*b"),
    (SETTINGS, 1, WRITE): ("setting_delete", "name*t"),
    (SETTINGS, 2, WRITE): ("commit", ""),
    (SETTINGS, 3, READ): ("load", ""),
    (SETTINGS, 3, WRITE): ("save", ""),
    (FILES, 0, READ): ("file_read", "off*u name*t"),
    (FILES, 0, WRITE): ("file_write", "off*u data*b len:u name*t"),
    (FILES, 1, READ): ("file_status", "name*t"),
    (FILES, 2, READ): ("file_hash", "name*t type:t off:u len:u"),
    (FILES, 3, READ): ("file_types", ""),
    (FILES, 4, WRITE): ("file_close", ""),
}

# What the number of a group's error is in version 1.
VERSION_ONE = {
    IMAGE: {8: 5, 9: 6, 11: 1, 12: 1, 13: 1, 14: 3, 21: 3, 22: 3, 23: 3, 24: 3, 28: 6, 30: 3, 31: 3, 33: 6, 64: 1},
    STATISTICS: {2: 5},
    SETTINGS: {2: 3, 3: 5, 11: 1, 12: 1, 13: 1, 64: 3, 65: 6, 66: 1},
    FILES: {2: 3, 3: 5, 12: 3, 13: 8, 64: 6, 65: 3},
}


def read_packet(raw):
    """The packet that the bytes are, or None."""
    if not 8 <= len(raw) <= LARGEST_PACKET or len(raw) != 8 + int.from_bytes(raw[2:4], "big"):
        return None
    group = int.from_bytes(raw[4:6], "big")
    return Packet(raw[0] >> 3 & 3, raw[0] & 7, group, raw[6], raw[7], raw[8:])


def write_packet(packet):
    """The bytes of a packet without reserved bits and flags."""
    first = packet.version << 3 | packet.operation
    length, group = len(packet.data).to_bytes(2, "big"), packet.group.to_bytes(2, "big")
    return bytes([first, 0]) + length + group + bytes([packet.sequence, packet.command]) + packet.data


def is_kind(value, kind):
    """Whether a value may stand for a key of this kind."""
    if kind == "u":
        return isinstance(value, int) and not isinstance(value, bool) and 0 <= value <= LARGEST_NUMBER
    return isinstance(value, {"t": str, "b": bytes, "f": bool}[kind])


def fields_of(keys, pairs):
    """The values of the known keys; None where they make no request."""
    fields = {}
    for word in keys.split():
        key, kind = word[:-2], word[-1]
        value = pairs.get(key)
        if value is None:
            if word[-2] == "*":
                return None
        elif not is_kind(value, kind):
            return None
        fields[key] = value
    return fields


def request_of(packet):
    """The name of the request and its fields; or the error that the packet is answered with, and None."""
    if packet.version > 1:
        return Failure(None, VERSION_TOO_NEW), None
    row = TABLE.get((packet.group, packet.command, packet.operation))
    if row is None:
        return Failure(None, NOT_SUPPORTED), None
    try:
        fields = fields_of(row[1], cbor.read_map(packet.data))
    except cbor.Refused:
        fields = None
    if fields is None:
        return Failure(None, INVALID_VALUE), None
    return row[0], fields


def data_of(version, reply):
    """What a reply says: a failure, or a map as it is."""
    if not isinstance(reply, Failure):
        return reply
    if reply.group is None:
        return {"rc": reply.number}
    if version == 0:
        return {"rc": VERSION_ONE[reply.group][reply.number]}
    return {"err": {"group": reply.group, "rc": reply.number}}


def write_reply(to, reply):
    """The packet that answers a request."""
    data = cbor.write(data_of(to.version, reply))
    return write_packet(to._replace(version=min(to.version, 1), operation=to.operation + 1, data=data))
