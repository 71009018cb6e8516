"""The device: what it answers, and what it then holds."""

from .files import Files
from .flash import Fault
from .packet import IMAGE, INVALID_VALUE, READ, SETTINGS, STATISTICS, WRITE
from .packet import Failure, read_packet, request_of, write_reply
from .settings import LARGEST_NAME, NAME_LENGTH, NO_NAME, Settings, form_of
from .side import NO_DIGEST, NO_FREE, NO_SLOT, Side

FAULTS = {"read": 11, "write": 12, "erase": 13}
NO_HASH, OTHER_MARK, ACTIVE_TEST, NO_GROUP = 8, 28, 33, 2
LARGEST_COUNT = 0xFFFFFFFF


class Device:
    """A device over a flash. `answer` may raise that the flash went off, and `start` also that it failed."""

    def __init__(self, flash):
        self.flash = flash
        self.settings = Settings(flash)
        self.sides = [Side(flash, image) for image in range(flash.geometry.images)]

    def format(self, images):
        """Makes a device of a flash of FF."""
        for side, held in zip(self.sides, images):
            side.format(held)
        self.settings.format()

    def start(self):
        self.files, self.target = Files(), 0
        self.counts = {"handled": 0, "dropped": 0, "errors": 0}
        for side in self.sides:
            side.mounted = False
        self.settings.load()
        for side in self.sides:
            side.mount()

    def shown(self):
        """The line of a boot."""
        sides = " ".join(side.shown() for side in self.sides)
        return f"boot {sides} saved {form_of(self.settings.saved).hex()}"

    def count(self, what):
        self.counts[what] = min(self.counts[what] + 1, LARGEST_COUNT)

    def answer(self, raw):
        """The reply to a packet and whether it is a reset; None where the packet is dropped."""
        packet = read_packet(raw)
        if packet is None or packet.operation not in (READ, WRITE):
            self.count("dropped")
            return None
        what, fields = request_of(packet)
        reply = what
        if fields is not None:
            reply = self.reply(packet.group, what, fields)
        self.count("handled")
        if isinstance(reply, Failure):
            self.count("errors")
        return write_reply(packet, reply), what == "reset"

    def reply(self, group, what, ask):
        """What a request is answered; the name of each request is that of a method."""
        try:
            return getattr(self, what)(ask)
        except Fault as fault:
            return Failure(group, FAULTS[fault.operation])

    # The system and statistics.

    def echo(self, ask):
        return {"r": ask["d"]}

    def reset(self, _):
        return {}

    def parameters(self, _):
        return {"buf_size": 2048, "buf_count": 1}

    def statistics(self, ask):
        if ask["name"] != "smp":
            return Failure(STATISTICS, NO_GROUP)
        return {"name": "smp", "fields": dict(self.counts)}

    def statistics_list(self, _):
        return {"stat_list": ["smp"]}

    # Images.

    def with_side(self, side, act):
        """Acts on a side, which is mounted first, and is no longer mounted where its flash fails."""
        try:
            side.mount()
            return act(side)
        except Fault:
            side.mounted = False
            raise

    def mount_all(self):
        for side in self.sides:
            self.with_side(side, lambda _: None)

    def list(self):
        return {"images": [entry for side in self.sides for entry in side.entries()]}

    def image_list(self, _):
        self.mount_all()
        return self.list()

    def image_of(self, ask):
        """The number of the image that a start or part is for."""
        if ask["image"] is not None:
            return ask["image"]
        return 0 if ask["off"] == 0 or ask["sha"] is not None else self.target

    def upload(self, ask):
        image = self.image_of(ask)
        if image >= len(self.sides):
            return Failure(IMAGE, NO_SLOT)
        side = self.sides[image]
        refusal = side.refusal(ask)
        if refusal is not None:
            return Failure(IMAGE, refusal)
        if ask["off"]:
            return self.with_side(side, lambda side: side.part(ask))
        return self.with_side(side, lambda side: side.start(ask, lambda: setattr(self, "target", image)))

    def image_set(self, ask):
        name = ask["hash"] or None
        if name is not None and len(name) != 32:
            return Failure(IMAGE, NO_DIGEST)
        if name is None and not ask["confirm"]:
            return Failure(None, INVALID_VALUE)
        self.mount_all()
        for side in self.sides:
            if name in (None, side.active.hash):
                return self.set_active(side, ask["confirm"])
        for side in self.sides:
            if side.stored and side.stored.hash == name:
                return self.set_stored(side, "permanent" if ask["confirm"] else "test")
        return Failure(IMAGE, NO_HASH)

    def set_active(self, side, confirm):
        if not confirm:
            return Failure(IMAGE, ACTIVE_TEST)
        self.with_side(side, lambda side: side.confirm())
        return self.list()

    def set_stored(self, side, mark):
        if side.pending is None:
            self.with_side(side, lambda side: side.mark(mark))
        elif side.pending != mark:
            return Failure(IMAGE, OTHER_MARK)
        return self.list()

    def erase(self, ask):
        slot = 1 if ask["slot"] is None else ask["slot"]
        if slot not in (1, 3)[:len(self.sides)]:
            return Failure(IMAGE, NO_SLOT)
        return self.with_side(self.sides[slot // 2], self.erase_side)

    def erase_side(self, side):
        if side.pending:
            return Failure(IMAGE, NO_FREE)
        side.erase()
        return {}

    # Settings.

    def named(self, ask):
        """The name of a setting, and the error that refuses it."""
        name = ask["name"].encode()
        return name, None if 1 <= len(name) <= LARGEST_NAME else Failure(SETTINGS, NAME_LENGTH)

    def running(self, ask):
        """The name of a setting, and the error where it is refused or doesn't run."""
        name, refusal = self.named(ask)
        if refusal is None and name not in self.settings.running:
            refusal = Failure(SETTINGS, NO_NAME)
        return name, refusal

    def setting_read(self, ask):
        name, refusal = self.running(ask)
        return refusal or {"val": self.settings.running[name][:ask["max_size"]]}

    def setting_write(self, ask):
        name, refusal = self.named(ask)
        if refusal is None:
            number = self.settings.write(name, ask["val"])
            refusal = None if number is None else Failure(SETTINGS, number)
        return refusal or {}

    def setting_delete(self, ask):
        name, refusal = self.running(ask)
        if refusal is None:
            del self.settings.running[name]
        return refusal or {}

    def commit(self, _):
        return {}

    def load(self, _):
        self.settings.load()
        return {}

    def save(self, _):
        self.settings.save()
        return {}

    # Files.

    def file_read(self, ask):
        return self.files.answer("file_read", ask)

    def file_write(self, ask):
        return self.files.answer("file_write", ask)

    def file_status(self, ask):
        return self.files.answer("file_status", ask)

    def file_hash(self, ask):
        return self.files.answer("file_hash", ask)

    def file_types(self, _):
        return {"types": {"sha256": {"format": 1, "size": 32}}}

    def file_close(self, _):
        return {}
