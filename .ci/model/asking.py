"""Requests as packets, for the schedules of checks."""

from hashlib import sha256

from . import cbor
from .packet import TABLE, Packet, write_packet

PLACES = {name: place for place, (name, _) in TABLE.items()}  # an echo is written as a write, its later row


def packet(group, command, operation, data, version=1, sequence=0):
    """The bytes of a packet with this data, which is written where it isn't bytes."""
    held = data if isinstance(data, bytes) else cbor.write(data)
    return write_packet(Packet(version, operation, group, sequence, command, held))


def ask(what, version=1, sequence=0, /, **fields):
    """The packet of a request by its name, its keys in the order of the table; a field that is None is left out."""
    group, command, operation = PLACES[what]
    keys = [word[:-2] for word in TABLE[group, command, operation][1].split()]
    data = {key: fields[key] for key in keys if fields.get(key) is not None}
    return packet(group, command, operation, data, version, sequence)


def start(file, count, digest=True, image=None, version=1):
    """The start of an upload with the first bytes of a file; `digest` may be other bytes than its SHA-256, or False."""
    sha = sha256(file).digest() if digest is True else digest or None
    return ask("upload", version, image=image, off=0, len=len(file), sha=sha, data=file[:count])


def part(file, begun, end, tag=None, image=None, version=1):
    """The bytes of a file between two places as a part of an upload."""
    sha = sha256(file).digest() if tag is True else tag
    return ask("upload", version, image=image, off=begun, sha=sha, data=file[begun:end])


def parts(file, step, image=None, tag=None):
    """All packets of an upload."""
    rest = [part(file, at, at + step, tag, image) for at in range(step, len(file), step)]
    return [start(file, step, image=image)] + rest


def write_file(name, held, begun=0, length=None):
    """A part of a file; a start announces what it holds where no other length is given."""
    if length is None and begun == 0:
        length = len(held)
    return ask("file_write", name=name, off=begun, data=held, len=length)


def raw(held):
    """The line of a packet."""
    return f"raw {held.hex()}"
