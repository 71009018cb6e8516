"""The slots of one image: its upload, its marks, and what a start finds of them."""

from collections import namedtuple
from hashlib import sha256

from .bank import Bank
from .flash import Layout, filled, is_blank
from .image import MAGIC, SMALLEST, good_image
from .packet import IMAGE, Failure

TRAILER = bytes.fromhex("77c295f360d2ef7f3552500f2cb67980")
SET = b"\x01" + b"\xff" * 7
CELL = 8
NO_SLOT, NO_LENGTH, NO_HEADER, NO_MAGIC, NO_DIGEST, TOO_LARGE = 14, 21, 22, 23, 24, 30
PAST_END, NO_FREE = 31, 9

Record = namedtuple("Record", "length digest offset rescue")


def record_body(image, record):
    """The bytes of a record; those of none where it is None."""
    if record is None:
        return bytes([2, 0, 0, image]) + bytes(44)
    kind, announced = 2 if record.rescue else 1, 1 if record.digest is not None else 0
    numbers = record.length.to_bytes(4, "big") + record.offset.to_bytes(4, "big") + bytes(4)
    return bytes([2, kind, announced, image]) + numbers + (record.digest or bytes(32))


def read_record(body, cells):
    """The record that a body and its cells give."""
    if body[1] == 0:
        return None
    last = cells[-1] if cells else bytes([body[1]]) + bytes(3) + body[8:12]
    digest = body[16:] if body[2] else None
    return Record(int.from_bytes(body[4:8], "big"), digest, int.from_bytes(last[4:], "big"), last[0] == 2)


class Side:
    """One image of a device."""

    def __init__(self, flash, image):
        self.flash, self.image = flash, image
        self.geometry, self.layout = flash.geometry, Layout(flash.geometry, image)
        self.bank = Bank(flash, self.layout.progress, CELL)
        self.mounted = False

    def format(self, held):
        self.store(self.layout.primary, held)
        self.bank.make(record_body(self.image, None))

    # The flash.

    def store(self, at, held):
        """Writes bytes page by page; a page that begins among them is erased before where it is not all FF."""
        page = self.geometry.page
        while held:
            begun = at % page
            part, held = held[:page - begun], held[page - begun:]
            if not begun:
                self.flash.clear(at, at + page)
            self.flash.write(at, filled(part, self.geometry.unit, b"\xff"))
            at += len(part)

    def put_record(self, record):
        """A cell where only kind and offset change and one is free, else the whole record."""
        old = self.record
        if record and old and record[:2] == old[:2] and not self.bank.is_full():
            self.bank.append(bytes([2 if record.rescue else 1, 0, 0, 0]) + record.offset.to_bytes(4, "big"))
        else:
            self.bank.replace(record_body(self.image, record))
        self.record = record

    def accepted(self):
        """The bytes of the upload."""
        return self.flash.read(self.layout.secondary, self.record.offset)

    def mount(self):
        """Reads the image's regions and ends what was begun; nothing where that was done before."""
        if self.mounted:
            return
        self.bank.open()
        self.record = read_record(self.bank.body, self.bank.cells)
        self.active = good_image(self.flash.read(self.layout.primary, self.layout.room))
        self.confirmed = self.flash.read(self.layout.secondary - 24, 1) == b"\x01"
        trailer = self.flash.read(self.layout.progress - 24, 24)
        self.pending = None
        if trailer[8:] == TRAILER:
            self.pending = "permanent" if trailer[0] == 1 else "test"
        self.settle()
        self.look()
        self.mounted = True

    def settle(self):
        """Gives up a whole upload with a wrong digest, and saves the page that an upload ends in."""
        record = self.record
        if record is None:
            return
        if self.is_wrong():
            self.put_record(None)
        elif record.rescue:
            self.write_back()
        elif record.offset < record.length and record.offset % self.geometry.page and not self.is_tail_clean():
            self.rescue()

    def look(self):
        """Finds the image of a whole upload."""
        self.stored = None
        if self.record and self.record.offset == self.record.length:
            self.stored = good_image(self.accepted())

    def is_wrong(self):
        """Whether the upload is whole and has another digest than the one announced."""
        record = self.record
        if record.digest is None or record.offset < record.length:
            return False
        return sha256(self.accepted()).digest() != record.digest

    def is_tail_clean(self):
        at = self.layout.secondary + self.record.offset
        return is_blank(self.flash.read(at, -at % self.geometry.page))

    def open_page(self):
        """The place of the page that the upload ends in, and how many of its bytes are the upload's."""
        begun = self.record.offset % self.geometry.page
        return self.layout.secondary + self.record.offset - begun, begun

    def rescue(self):
        """Copies the upload's bytes of its last page to the scratch page, and says so in the record."""
        at, begun = self.open_page()
        self.flash.clear(self.layout.scratch, self.layout.scratch + self.geometry.page)
        self.flash.write(self.layout.scratch, self.flash.read(at, begun))
        self.put_record(self.record._replace(rescue=True))
        self.write_back()

    def write_back(self):
        """Writes the bytes of the scratch page into a clean page of the slot."""
        at, begun = self.open_page()
        held = self.flash.read(self.layout.scratch, begun)
        self.flash.erase(at)
        self.flash.write(at, held)
        self.put_record(self.record._replace(rescue=False))

    # Uploads.

    def wanted(self):
        return self.record.offset if self.record else 0

    def refusal(self, ask):
        """The error of a part that its fields alone refuse."""
        if ask["off"] == 0:
            if ask["len"] is None:
                return NO_LENGTH
            if ask["sha"] is not None and len(ask["sha"]) != 32:
                return NO_DIGEST
            if ask["len"] > self.layout.room:
                return TOO_LARGE
            if len(ask["data"]) < SMALLEST:
                return NO_HEADER
            return NO_MAGIC if ask["data"][:4] != MAGIC else None
        return NO_DIGEST if ask["sha"] is not None and len(ask["sha"]) != 32 else None

    def start(self, ask, begin):
        """Answers a start; `begin` is called before the first operation of one that is answered with an offset."""
        record, held = self.record, ask["data"]
        if record and record.digest is not None and (record.length, record.digest) == (ask["len"], ask["sha"]):
            if record.offset:
                begin()
                return {"off": record.offset}
            return self.append(held, begin)
        if self.pending:
            return Failure(IMAGE, NO_FREE)
        if len(held) > ask["len"]:
            return Failure(IMAGE, PAST_END)
        begin()
        self.put_record(Record(ask["len"], ask["sha"], 0, False))
        self.stored = None
        return self.append(held, begin)

    def part(self, ask):
        """Answers a part above offset 0."""
        tag = ask["sha"]
        is_other = tag is not None and (self.record is None or self.record.digest != tag)
        if ask["off"] != self.wanted() or is_other:
            return {"off": self.wanted()}
        return self.append(ask["data"], lambda: None)

    def append(self, held, begin):
        """Stores data at the wanted offset."""
        record = self.record
        end = record.offset + len(held)
        if end > record.length:
            return Failure(IMAGE, PAST_END)
        begin()
        if end < record.length:
            held = held[:len(held) - len(held) % self.geometry.unit]
        if not held:
            return {"off": record.offset}
        self.store(self.layout.secondary + record.offset, held)
        self.put_record(record._replace(offset=record.offset + len(held)))
        return self.finish(self.record)

    def finish(self, record):
        """The answer after data was stored."""
        answer = {"off": record.offset}
        if record.offset == record.length:
            wrong = self.is_wrong()
            if record.digest is not None:
                answer["match"] = not wrong
            if wrong:
                self.put_record(None)
            self.look()
        return answer

    # Marks.

    def entries(self):
        """What a list says of the image's slots."""
        entries = [self.entry(0, self.active, False, self.confirmed, True, False)]
        if self.stored:
            entries.append(self.entry(1, self.stored, bool(self.pending), False, False, self.pending == "permanent"))
        return entries

    def entry(self, slot, image, pending, confirmed, active, permanent):
        named = {"image": self.image} if self.geometry.images == 2 else {}
        return named | {
            "slot": slot, "version": image.version, "hash": image.hash, "bootable": image.bootable, "pending": pending,
            "confirmed": confirmed, "active": active, "permanent": permanent,
        }

    def clear_last_page(self, end):
        self.flash.clear(end - self.geometry.page, end)

    def confirm(self):
        if not self.confirmed:
            end = self.layout.secondary
            self.clear_last_page(end)
            self.flash.write(end - 24, SET)
            self.confirmed = True

    def mark(self, mark):
        end = self.layout.progress
        self.clear_last_page(end)
        if mark == "permanent":
            self.flash.write(end - 24, SET)
        self.flash.write(end - 16, TRAILER)
        self.pending = mark

    def erase(self):
        if self.record is not None:
            self.put_record(None)
        self.stored = None
        self.flash.clear(self.layout.secondary, self.layout.progress)

    def shown(self):
        """What the line of a boot says of the image."""
        upload, confirmed = "none", "yes" if self.confirmed else "no"
        if self.record:
            digest = self.record.digest.hex() if self.record.digest is not None else "-"
            upload = f"{self.record.offset}/{self.record.length}/{digest}"
        return f"upload {upload} pending {self.pending or 'none'} confirmed {confirmed}"
