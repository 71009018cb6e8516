"""The flash of a schedule, its layout, and the trouble that is armed."""

from collections import namedtuple

SIDE = 4096
GATE = b"GATEGATE"
STEP, OFFSET = 1664525, 1013904223  # of the generator of what is left by a struck operation

Arm = namedtuple("Arm", "kind region after left")
Geometry = namedtuple("Geometry", "page unit pages images")


class Off(Exception):
    """A cut fell, or the flash is off."""


class Fault(Exception):
    """An operation failed; `operation` is read, write or erase."""

    def __init__(self, operation):
        super().__init__(operation)
        self.operation = operation


class Layout:
    """Where the regions of one image begin, and the settings, which all images share."""

    def __init__(self, geometry, image):
        self.geometry = geometry
        self.slot_length = geometry.page * geometry.pages
        self.room = self.slot_length - geometry.page
        one = 2 * self.slot_length + 4 * SIDE + geometry.page
        self.primary = image * one
        self.secondary = self.primary + self.slot_length
        self.progress = self.secondary + self.slot_length
        self.scratch = self.progress + 2 * SIDE
        self.settings = one - 2 * SIDE
        self.size = one if geometry.images == 1 else 2 * one - 2 * SIDE


def regions_of(geometry):
    """The place and the end of each region that can be armed."""
    regions = {}
    for image in range(geometry.images):
        layout = Layout(geometry, image)
        mark = "2" if image else ""
        regions[f"slot{2 * image}"] = layout.primary, layout.secondary
        regions[f"slot{2 * image + 1}"] = layout.secondary, layout.progress
        regions[f"progress{mark}"] = regions[f"progress{mark}-gate"] = layout.progress, layout.scratch
        regions[f"scratch{mark}"] = layout.scratch, layout.scratch + geometry.page
        regions["settings"] = regions["settings-gate"] = layout.settings, layout.settings + 2 * SIDE
    regions["any"] = 0, Layout(geometry, 0).size
    return regions


def left_of(seed, old, new):
    """What a struck operation leaves in its range: bytes by a seed, those of an erase only where they become FF."""
    held = bytearray(old)
    erase = new is None
    for at in range(len(held)):
        seed = (seed * STEP + OFFSET) & 0xFFFFFFFF
        if not erase:
            held[at] = seed >> 24
        elif seed >> 31:
            held[at] = 0xFF
    return bytes(held)


class Flash:
    """Bytes that are written where they are FF, and erased by pages."""

    def __init__(self, geometry):
        self.geometry = geometry
        self.held = bytearray(b"\xff" * Layout(geometry, 0).size)
        self.regions = regions_of(geometry)
        self.on = True
        self.arm = None
        self.changes = 0

    def counts(self, operation, at, new):
        """Whether an operation counts for what is armed."""
        if self.arm is None or (self.arm.kind == "read") != (operation == "read"):
            return False
        start, end = self.regions.get(self.arm.region, (0, 0))
        if not start <= at < end:
            return False
        return not self.arm.region.endswith("-gate") or operation == "write" and new == GATE

    def strike(self, operation, at, length, new):
        """Does what is armed where this operation is the one that it waits for."""
        if not self.on:
            raise Off
        if not self.counts(operation, at, new):
            return
        arm = self.arm
        self.arm = arm._replace(after=arm.after - 1)
        if arm.after > 1:
            return
        self.arm = None
        if operation != "read":
            self.leave(arm.left, at, length, new)
        if arm.kind == "cut":
            self.on = False
            raise Off
        raise Fault(operation)

    def leave(self, left, at, length, new):
        """What a struck write or erase leaves."""
        if left == "all":
            self.held[at:at + length] = b"\xff" * length if new is None else new
        elif left != "none":
            self.held[at:at + length] = left_of(left, self.held[at:at + length], new)

    def read(self, at, length):
        self.strike("read", at, length, None)
        return bytes(self.held[at:at + length])

    def write(self, at, new):
        if at % self.geometry.unit or len(new) % self.geometry.unit or not is_blank(self.held[at:at + len(new)]):
            raise AssertionError(f"an unlawful write of {len(new)} bytes at {at}")
        self.changes += 1
        self.strike("write", at, len(new), new)
        self.held[at:at + len(new)] = new

    def erase(self, at):
        page = self.geometry.page
        if at % page:
            raise AssertionError(f"an unlawful erase at {at}")
        self.changes += 1
        self.strike("erase", at, page, None)
        self.held[at:at + page] = b"\xff" * page

    def clear(self, start, end):
        """Erases the pages of a range that are not all FF, in ascending order."""
        for at in range(start, end, self.geometry.page):
            if not is_blank(self.read(at, self.geometry.page)):
                self.erase(at)


def is_blank(held):
    """Whether all bytes are FF."""
    return held.count(0xFF) == len(held)


def filled(held, unit, byte):
    """The bytes, and as many of another as make whole units."""
    return held + byte * (-len(held) % unit)
