"""Files in memory."""

from collections import namedtuple
from hashlib import sha256

from .packet import FILES, INVALID_VALUE, Failure

LARGEST_NAME, LARGEST_FILE, LARGEST_PART, MOST = 64, 16384, 1024, 8
NAME_LENGTH, NO_FILE, PAST_END, NO_HASH, NO_FREE, TOO_LONG = 2, 3, 12, 13, 64, 65

File = namedtuple("File", "length held")


class Files:
    """Files by their names, each with the length that was announced."""

    def __init__(self):
        self.files = {}

    def answer(self, what, ask):
        """The reply to a request of the group that has a name."""
        if not 1 <= len(ask["name"].encode()) <= LARGEST_NAME:
            return Failure(FILES, NAME_LENGTH)
        if what == "file_write" and ask["off"] == 0:
            return self.begin(ask["name"], ask["len"], ask["data"])
        if ask["name"] not in self.files:
            return Failure(FILES, NO_FILE)
        return getattr(self, what)(self.files[ask["name"]], ask)

    def begin(self, name, length, held):
        if length is None:
            return Failure(None, INVALID_VALUE)
        if length > LARGEST_FILE:
            return Failure(FILES, TOO_LONG)
        if len(held) > length:
            return Failure(FILES, PAST_END)
        if name not in self.files and len(self.files) == MOST:
            return Failure(FILES, NO_FREE)
        self.files[name] = File(length, held)
        return {"off": len(held)}

    def file_write(self, file, ask):
        """A part behind the first one."""
        if ask["off"] == len(file.held):
            if len(file.held) + len(ask["data"]) > file.length:
                return Failure(FILES, PAST_END)
            file = file._replace(held=file.held + ask["data"])
            self.files[ask["name"]] = file
        return {"off": len(file.held)}

    def file_read(self, file, ask):
        if ask["off"] > len(file.held):
            return Failure(FILES, PAST_END)
        answer = {"off": ask["off"], "data": file.held[ask["off"]:ask["off"] + LARGEST_PART]}
        return answer | ({"len": len(file.held)} if ask["off"] == 0 else {})

    def file_status(self, file, _):
        return {"len": len(file.held)}

    def file_hash(self, file, ask):
        if ask["type"] not in (None, "sha256"):
            return Failure(FILES, NO_HASH)
        begun = ask["off"] or 0
        if begun > len(file.held):
            return Failure(FILES, PAST_END)
        held = file.held[begun:]
        if ask["len"] is not None:
            held = held[:ask["len"]]
        named = {"off": begun} if begun else {}
        return {"type": "sha256"} | named | {"len": len(held), "output": sha256(held).digest()}
