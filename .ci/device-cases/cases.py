"""The schedules of this folder: `CASES` has the text of each by its name.

A case is a function that gives the lines of its schedule: texts, which stand as they are, and packets.
"""

import struct
from hashlib import sha256

from model.asking import ask, packet, part, parts, raw, start, write_file
from model.flash import OFFSET, STEP
from model.image import MAGIC, make_image
from model.running import FILES, randbytes

CASES = {}
TWO = "flash 512 8 16 base.img other.img"
FORM_END = bytes.fromhex("0769280010002000")


def case(about):
    """Keeps the schedule of a function under its name."""
    def keep(lines):
        texts = [f"# {about}"] + [line if isinstance(line, str) else raw(line) for line in lines()]
        CASES[lines.__name__.replace("_", "-")] = "".join(text + "\n" for text in texts)
        return lines
    return keep


def magic(count, seed):
    """A file that begins as an image does and is none."""
    return MAGIC + randbytes(count - 4, seed)


def hash_of(image):
    """The hash that an image of `make_image` ends in."""
    return image[-32:]


def listed(hash=None, confirm=None, version=1):
    return ask("image_set", version, hash=hash, confirm=confirm)


SMALL = magic(300, 1)
LARGE = make_image(randbytes(1928, 2), (1, 2, 3))
NEW, NEXT = make_image(randbytes(100, 3), (0, 2, 2)), make_image(randbytes(60, 4), (0, 2, 3))
BASE, OTHER = FILES["base.img"], FILES["other.img"]
LIST = ask("image_list")
# Values in hexadecimal: those that are read, those that are not, and maps that are no echo.
GOOD_VALUES = """
    1bffffffffffffffff 3bffffffffffffffff 40 5a0000000100 60 80 9fff a0 bfff 9f809fffff bf0102ff a200010002 c000
    dbffffffffffffffff00 f4 f6 f7 e0 f3 f820 f8ff f97e00 fa00000000 fb0000000000000000 8181818181818100
    c1c1c1c1c1c1c100 62c3a9 64f09f9880
"""
BROKEN_VALUES = """
    1c 1d 1e 1f 3f 5f4100ff 7f6161ff df00 ff fc fd fe f800 f81f f8 18 19ff 5801 6261 61ff 62c328 63eda080
    64f4908080 9f00 bf00ff bf0001 9f c1 c1ff 818181818181818100 c1c1c1c1c1c1c1c100 9b00000000ffffffff
    bbffffffffffffffff 8200 a100 1b00
"""
BROKEN_MAPS = """
    80 00 f6 a1 bf a16164 a161646268 bf6164626869 a1616462686900 a0ff a1006164 a26164626869417800
    a26164626869616462686a a2616462686978016462686a bf6164626869ff00 a27f6164ff00 a1f6626869 a0
"""
SAVE, LOAD = ask("save"), ask("load")


def setting(name, value):
    return ask("setting_write", name=name, val=value)


def value_of(name, most=None):
    return ask("setting_read", name=name, max_size=most)


# Packets and their data.


@case("What the device says of itself, and its counters: one dropped packet and one echo after a boot.")
def parameters_and_counters():
    yield from (ask("parameters", 0), ask("statistics_list", 0), "boot", b"\x02\x00\x00\x06\x00\x00\x01")
    yield from (ask("echo", d="hi"), ask("statistics", name="smp"), ask("statistics", name="other"))
    yield from (ask("statistics", 0, name="other"), ask("statistics", name="smp"))


@case("Bytes that are no packet, operations that are none of a request, and the largest packet.")
def dropped_packets():
    echo = ask("echo", d="hi")
    yield from (echo[:count] for count in range(1, len(echo)))
    yield from (echo + b"\x00", bytes([echo[0] | 1]) + echo[1:], bytes([echo[0] & 0xF8 | 4]) + echo[1:])
    yield from (bytes([echo[0] & 0xF8 | operation]) + echo[1:] for operation in (1, 3, 5, 6, 7))
    yield from (bytes([echo[0] | 0xE0, 0xFF]) + echo[2:], ask("echo", d="x" * 2033))
    yield ask("echo", d="x" * 2033) + b"\x00"
    yield ask("statistics", name="smp")


@case("Version bits of all kinds, before and behind what else is wrong.")
def versions():
    for version in range(4):
        yield from (ask("echo", version, d="hi"), packet(0, 0, 2, b"\xff", version), packet(99, 0, 2, {}, version))
        yield from (ask("file_status", version, name=""), ask("reset", version))


@case("Groups, commands and operations that no request has.")
def unknown_requests():
    known = {0: (1, 2, 5, 6), 1: (0, 1, 2, 5, 6), 2: range(3), 3: range(5), 8: range(6), 9: range(1), 65535: range(1)}
    for group, commands in known.items():
        for command in commands:
            yield from (packet(group, command, operation, b"\xff") for operation in (0, 2))


@case("Data in every spelling that is read: an echo with another value beside its text.")
def other_spellings():
    text = bytes.fromhex("616462686961")  # d, hi, and the head of the next key's text
    for head in (b"\x62hi", b"\x78\x02hi", b"\x79\x00\x02hi"):
        yield packet(0, 0, 2, b"\xbf\x61\x64" + head + b"\xff")
    yield packet(0, 0, 2, b"\xb8\x01\x78\x01\x64\x7b" + bytes(7) + b"\x02hi")
    yield packet(0, 0, 2, b"\xa1\x61\x64\x60")
    for value in GOOD_VALUES.split():
        yield packet(0, 0, 2, b"\xa2" + text + b"x" + bytes.fromhex(value))


@case("Data that is refused: an echo with a broken value, or with something else behind its text.")
def refused_spellings():
    text = bytes.fromhex("616462686961")
    for value in BROKEN_VALUES.split():
        yield packet(0, 0, 2, b"\xa2" + text + b"x" + bytes.fromhex(value))
    for data in BROKEN_MAPS.split():
        yield packet(0, 0, 2, bytes.fromhex(data))


# Uploads over one image.


@case("Parts that end inside a write unit, a start that resumes, the end with its digest, and a byte too many.")
def whole_units():
    yield from (start(SMALL, 100), part(SMALL, 96, 99), start(SMALL, 100), part(SMALL, 96, 300), part(SMALL, 96, 300))
    yield from (ask("upload", off=300, data=b"\x00"), ask("upload", off=300, data=b""), start(SMALL, 100), "boot", LIST)


@case("A start that resumes and a part inside a unit make no write or erase: what is armed waits for a new start.")
def resuming_writes_nothing():
    yield from (start(SMALL, 100), "arm cut any 1 none", part(SMALL, 96, 99), start(SMALL, 100), part(SMALL, 8, 16))
    yield LIST
    yield from (start(NEW, 100), "boot")


@case("A digest that turns out wrong: the upload is given up, in this run and after the next start.")
def wrong_digest():
    yield from (start(SMALL, 100, bytes(32)), part(SMALL, 96, 300), part(SMALL, 96, 300), "boot")
    yield from (start(SMALL, 40, bytes(32)), "boot")
    yield from (part(SMALL, 40, 299), part(SMALL, 296, 300), LIST)


@case("An upload without a digest: nothing resumes it, its end says nothing of a match, and its image counts.")
def no_digest():
    yield from (start(NEW, 100, False), start(NEW, 48, False), part(NEW, 48, len(NEW)), LIST, "boot")
    yield from (listed(hash_of(NEW)), "boot", LIST)
    yield from (start(NEW, 48, False), listed(hash_of(NEW)), listed(hash_of(NEW), True))


@case("A file whose start comes between, late, and a part of the other file at the wanted offset.")
def late_start():
    shared = magic(480, 5)
    first, second = shared + randbytes(520, 6), shared + randbytes(320, 7)
    yield from (start(first, 480), start(second, 480), start(first, 480), part(second, 480, 800))
    yield from (part(first, 800, 1000), LIST, "boot")


@case("Tags: of another file, where there is no upload, of a wrong length, and of this file.")
def tags():
    first, second = magic(1000, 8), magic(800, 9)
    yield from (part(second, 480, 800, True), part(second, 480, 800, bytes(31)), part(second, 480, 800, b""))
    yield start(first, 480)
    yield from ("arm cut any 1 none", part(second, 480, 800, True), part(second, 480, 800, bytes(31)))
    yield part(first, 480, 484, True)
    yield from ("arm read any 1000000", part(first, 480, 1000, True), start(second, 480, False))
    yield part(second, 480, 800, True)
    yield from (part(second, 480, 800), "boot")


@case("What the fields of a start alone refuse, in both versions, and the first of several.")
def refused_starts():
    file = magic(7680, 10)
    for version in (0, 1):
        changes = [{"image": 1}, {"len": None}, {"sha": b""}, {"sha": bytes(31)}, {"len": 7681}, {"data": file[:31]}]
        for fields in changes + [{"data": bytes(32)}, {"len": 31}, {"len": 7680}]:
            yield ask("upload", version, **{"off": 0, "len": len(file), "data": file[:32], "sha": None} | fields)
    wrong = {"len": None, "sha": b"", "data": b""}
    yield from (ask("upload", off=0, image=2, **wrong), ask("upload", off=0, **wrong))
    yield ask("upload", off=0, **wrong | {"len": 9000})
    yield from (ask("upload", off=0, len=9000, data=b""), ask("upload", off=0, len=7000, data=b""), "boot")


@case("An upload as long as its room in large parts, by units of one byte.")
def largest_upload():
    file = make_image(randbytes(3 * 1024 - 72, 11))
    yield "flash 1024 1 4 base.img"
    yield from parts(file, 1001)
    yield from (LIST, listed(hash_of(file)), "boot", LIST, start(file + b"\x00", 100), start(file, 100))


@case("Complete uploads that are no good images: none is listed or set.")
def images_that_are_not_good():
    good = make_image(randbytes(40, 12))
    header, body = good[:32], good[32:72]

    def made(head, rest):
        held = head + rest
        return held + FORM_END + sha256(held).digest()
    changed = [
        good[:8] + b"\x1f" + good[9:], good[:16] + b"\x04" + good[17:], good[:16] + b"\x08" + good[17:], good[:-1],
        good[:-1] + bytes([good[-1] ^ 1]), made(header, body + b"\x00"), good[:74] + b"\x27" + good[75:],
        good[:76] + b"\x11" + good[77:], header,
        good[:10] + b"\x04" + good[11:], good[:12] + b"\xff\xff\xff\xff" + good[16:], good[:72], good[:75],
    ]
    for file in changed:
        yield from (start(file, len(file)), LIST, listed(file[-32:] if len(file) > 63 else bytes(32)))
    yield "boot"


@case("Images of other forms: protected entries, entries around the hash, bytes behind it, a larger header.")
def images_of_other_forms():
    payload = randbytes(40, 13)

    def headed(header=32, protected=0, flags=0, build=0):
        held = MAGIC + struct.pack("<IHHII4BI", 0, header, protected, len(payload), flags, 255, 254, 253, 252, build)
        return held.ljust(header, b"\x00") + payload

    def ended(held, before=b"", behind=b"", after=b""):
        entries = before + b"\x10\x00\x20\x00" + sha256(held).digest() + behind
        return held + b"\x07\x69" + (len(entries) + 4).to_bytes(2, "little") + entries + after
    entry = b"\x30\x00\x02\x00ab"
    headers = [headed(build=4294967295), headed(40), headed(flags=0x10), headed(flags=0xFFFFFFF3)]
    areas = [b"\x08\x69\x0a\x00" + entry, b"\x08\x69\x0b\x00" + entry]
    made = [ended(held) for held in headers] + [ended(headed(protected=10) + area) for area in areas]
    made += [ended(headed(), entry), ended(headed(), b"", entry), ended(headed(), after=b"behind")]
    again = b"\x10\x00\x20\x00" + sha256(headed()).digest()
    made += [ended(headed(), b"", again), ended(headed(), b"", b"\x10\x00\x00\x00")]
    for file in made + [ended(headed(), b"\x10\x00\x00\x00"), ended(headed(protected=3) + b"\x08\x69\x03")]:
        yield from (start(file, len(file)), LIST)


# Marks.


@case("A stored image is set by its hash, and again; while it is pending nothing changes it.")
def pending_slot():
    yield from (start(NEW, len(NEW)), listed(hash_of(NEW)), listed(hash_of(NEW)), listed(hash_of(NEW), True))
    yield start(NEXT, 100)
    yield from (ask("erase", slot=1), ask("erase"), ask("erase", slot=0), ask("erase", 0), start(NEW, 40))
    yield from (ask("upload", off=172, data=b"\x00"), "boot", LIST)
    yield from (start(NEXT, 100, version=0), listed(hash_of(NEW), True, 0), start(NEW, 40, False), part(NEW, 8, 16))
    yield part(NEW, 172, 172)


@case("A permanent mark, and hashes that no slot has or that are none.")
def permanent_slot():
    yield from (start(NEW, len(NEW)), listed(hash_of(NEXT)), listed(b"", False), listed(), listed(bytes(31)))
    yield listed(bytes(33), True)
    yield from (listed(hash_of(NEW), True), listed(hash_of(NEW)), listed(hash_of(NEW), True), "boot")
    yield from (listed(hash_of(NEW)), LIST)


@case("The running image is confirmed by a hash of no bytes, by null, or by its own; it can't be tested.")
def confirmed_slot():
    yield from (listed(hash_of(BASE)), listed(b"", True), "boot", listed(None, True))
    yield packet(1, 0, 2, {"hash": None, "confirm": True})
    yield from (listed(hash_of(BASE), True), listed(hash_of(BASE), False), "boot", LIST)


@case("Confirming is an erase, where the page isn't FF, and a write: cut with nothing, some and all left.")
def confirm_cut():
    for left in ("none", "7", "all"):
        yield from (f"arm cut slot0 1 {left}", listed(None, True), "boot", LIST)
    yield from ("arm cut slot0 1 none", listed(None, True), setting("a", b""), "arm fail any 1 none")
    yield from (listed(None, True), SAVE, "boot")


@case("A confirming write is struck and leaves other bytes: they confirm the image where the first of them is 01.")
def confirmed_by_what_is_left():
    for first in (0x00FFFFFF, 0x01000000):
        seed = (first - OFFSET) * pow(STEP, -1, 1 << 32) % (1 << 32)
        yield from (f"arm fail slot0 1 {seed}", listed(None, True), LIST, f"arm cut slot0 2 {seed}", listed(None, True))
        yield "boot"


@case("The mark's writes: cut between the permanent byte and the magic, and behind them; then a test.")
def mark_cut():
    yield from (start(NEW, len(NEW)), "arm cut slot1 2 none", listed(hash_of(NEW), True), "boot", listed(hash_of(NEW)))
    yield "boot"


@case("The mark's writes: the second one is done when the power is cut.")
def mark_cut_behind():
    yield from (start(NEW, len(NEW)), "arm cut slot1 2 all", listed(hash_of(NEW), True), "boot", listed(hash_of(NEW)))
    yield LIST


@case("A mark whose writes fail in turn is no mark; the next one erases the page before.")
def mark_fails():
    yield start(NEW, len(NEW))
    for number, left in ((1, "1"), (2, "2"), (3, "3"), (1, "none"), (1, "all")):
        yield from (f"arm fail slot1 {number} {left}", listed(hash_of(NEW), True), LIST)
    yield from (listed(hash_of(NEW), True), "boot")


@case("An image in slot 1 that is the running one: the running one is meant.")
def same_image_twice():
    yield from (start(BASE, 80), LIST, listed(hash_of(BASE)), listed(hash_of(BASE), True), "boot", LIST)


@case("An erase takes the record first, then the pages that aren't FF; it may be repeated.")
def erased_slot():
    yield from (start(LARGE, 1000), part(LARGE, 1000, 2000), LIST)
    for number in range(1, 5):
        yield from (f"arm cut slot1 {number} none", ask("erase"), "boot", LIST, start(LARGE, 1000))
        yield part(LARGE, 1000, 2000)
    yield from ("arm cut progress-gate 1 none", ask("erase"), "boot", "arm cut progress-gate 1 all", ask("erase"))
    yield from ("boot", "arm cut any 5 none")
    yield from (ask("erase"), ask("erase"), ask("erase", 0, slot=2), ask("erase", slot=4294967295), start(NEW, 100))
    yield "boot"


# Cuts within an upload.


def half():
    """The start of an image, and the part that is struck."""
    return [start(LARGE, 480), part(LARGE, 480, 960)]


def behind(*between):
    """The lines from a boot on: what is armed for it, boots, and the rest of the upload."""
    yield from between
    yield from (part(LARGE, 480, 960), part(LARGE, 960, 2000), LIST, "boot")


@case("A part is cut at its first byte on; the page that it would fill is saved by the next start.")
def part_cut():
    begun, struck = half()
    yield from (begun, "arm cut slot1 1 all", struck)
    yield from behind("boot")


@case("The saving of a page is cut at its erase, and goes on at the next start.")
def rescue_cut():
    begun, struck = half()
    yield from (begun, "arm cut slot1 1 all", struck, "arm cut slot1 1 7", "boot")
    yield from behind("boot")


@case("The saving of a page goes on with the erase of the slot's page, also where that is FF already.")
def rescue_erases_again():
    begun, struck = half()
    yield from (begun, "arm cut slot1 1 all", struck, "arm cut slot1 1 all", "boot", "arm cut slot1 2 none", "boot")
    yield from behind("boot")


@case("The saving of a page is cut as it fills the scratch page, and begins anew at the next start.")
def scratch_cut():
    begun, struck = half()
    yield from (begun, "arm cut slot1 1 all", struck, "arm cut scratch 1 7", "boot", "arm cut scratch 2 7", "boot")
    yield from behind("boot")


@case("The saving of a page is cut and fails at each of its operations in turn.")
def rescue_struck():
    begun, struck = half()
    yield from (begun, "arm cut slot1 1 9", struck)
    for number in range(1, 10):
        yield from (f"arm {'fail' if number % 2 else 'cut'} any {number} {number}", "boot")
    yield from behind("boot")


@case("The page is saved by the next request where a part failed.")
def rescue_in_a_request():
    begun, struck = half()
    yield from (begun, "arm fail slot1 1 5", struck, "arm fail scratch 1 3", struck, "arm fail progress 1 3", LIST)
    yield "arm fail slot1 1 all"
    yield from (ask("erase", slot=0), struck, LIST, "boot")
    yield from behind()


@case("A part's record is cut at its gate: nothing of the gate, or all of it.")
def record_cut():
    begun, struck = half()
    yield from (begun, "arm cut progress-gate 1 none", struck)
    yield from behind("boot")
    yield from (ask("erase"), begun, "arm cut progress-gate 1 all", struck, "boot", part(LARGE, 480, 960))


@case("A gate that is armed for the second part leaves the first one alone.")
def second_record_cut():
    begun, struck = half()
    yield from (begun, "arm cut progress-gate 2 none", struck, part(LARGE, 960, 1440), "boot")
    yield from behind()


@case("A start over another upload is cut at each of its operations.")
def start_cut():
    yield start(LARGE, 480)
    for number in range(1, 9):
        yield from (f"arm cut any {number} {number}", start(NEW, 100), "boot", ask("erase"), start(LARGE, 480))
    yield from (start(NEW, 100), "boot")


@case("Each operation of a group answers its own number where it fails, in both versions.")
def failures():
    for version in (0, 1):
        yield from ("arm fail slot1 1 none", start(LARGE, 480, version=version), "arm fail progress 1 none")
        yield part(LARGE, 0, 8, version=version)
        yield from (part(LARGE, 480, 960, version=version), "arm fail slot1 1 8", part(LARGE, 8, 960, version=version))
        yield from (start(NEW, 100), "arm fail slot1 1 none", start(NEXT, 40, version=version), "arm fail slot1 1 none")
        yield ask("erase", version)
        yield from (setting("a", bytes([version])), "arm fail settings 1 none", ask("save", version), SAVE, "boot")
    yield from ("arm read any 1", "boot", LIST, "boot", "arm read progress 1", "boot", "boot", "arm read scratch 1")
    yield "boot"


@case("A whole upload with a wrong digest whose record could not be taken: the next request or start takes it.")
def giving_up_is_struck():
    wrong = start(SMALL, 100, bytes(32))
    for number in (1, 3, 4, 5, 6):
        yield from (wrong, f"arm fail any {number} 1", part(SMALL, 96, 300), part(SMALL, 96, 300), "boot")
        yield from (wrong, f"arm cut any {number} 2", part(SMALL, 96, 300), "arm cut any 1 3", "boot")
        yield from ("arm fail any 2 4", "boot", "boot")


@case("Acknowledged offsets by cells of eight bytes, until a side is full and replaced.")
def progress_cells():
    file = magic(2400, 14)
    yield start(file, 32)
    yield from (part(file, at, at + 8) for at in range(32, 2048, 8))
    yield from ("boot", part(file, 2048, 2056), "arm cut progress 3 none", part(file, 2056, 2064))
    yield from (part(file, 2064, 2072), "boot")


@case("A cell without its gate is dead: the next one stands behind it.")
def dead_cell():
    file = magic(2400, 15)
    yield from (start(file, 32), part(file, 32, 40))
    for left in ("none", "all", "3"):
        yield from (f"arm cut progress-gate 1 {left}", part(file, 40, 48), "boot", part(file, 40, 48))
        yield from (part(file, 48, 56), "boot")
        yield from (f"arm cut progress 1 {left}", part(file, 56, 64), "boot", ask("erase"), start(file, 32))
        yield part(file, 32, 40)


# Two images.


@case("An erase of slot 3 where there are two images.")
def two_images_erase():
    yield from (TWO, ask("erase", slot=3), ask("erase", slot=2), ask("erase", slot=4), ask("erase"))


@case("An erase of slot 3 where there is one image.")
def one_image_erase():
    yield from (ask("erase", slot=3), ask("erase", 0, slot=3), start(NEW, 100, image=1), start(NEW, 100, image=0))


@case("Both images get a new one, which is set by its hash: four entries, and slot 1 as it was.")
def two_images_pending():
    yield from (TWO, LIST, start(NEW, 172, image=0), listed(hash_of(NEW)), start(NEXT, 100, image=1))
    yield from (part(NEXT, 96, 132, None, 1), LIST)
    yield from (listed(hash_of(NEXT), True), "boot", listed(None, True), listed(hash_of(OTHER)))
    yield from (listed(hash_of(OTHER), True), "boot")
    yield from (start(LARGE, 100), start(LARGE, 100, image=1), ask("erase", slot=3), start(LARGE, 100, image=2))
    yield listed(hash_of(NEXT))


@case("One image in several slots: the primary ones are meant before the others, and the first before the second.")
def two_images_order():
    yield from (TWO, start(OTHER, 93), start(BASE, 80, image=1), LIST, listed(hash_of(OTHER), True))
    yield from (listed(hash_of(BASE)), LIST)
    yield from (start(NEW, 172), start(NEW, 172, image=1), listed(hash_of(NEW)), "boot", LIST)
    yield from (start(NEXT, 132, image=1), listed(hash_of(NEXT), True))


@case("Parts without image or tag follow the last start that was answered with an offset; a tag means image 0.")
def parts_without_image():
    first, second = magic(400, 16), magic(500, 17)
    yield from (TWO, part(first, 100, 200), start(first, 96), start(second, 200, image=1), part(second, 200, 304))
    yield part(first, 96, 200, True)
    yield from (start(first, 96), part(first, 200, 240), start(second, 64, image=1), part(second, 304, 400), "boot")
    yield part(second, 400, 408)
    yield from (part(second, 400, 408, None, 1), part(second, 408, 416), start(second, 501, False, 1))
    yield from (part(first, 240, 248), LIST)
    yield from (ask("upload", off=0, image=1, len=499, data=second), part(first, 248, 256))
    yield part(second, 408, 416, True, 1)


@case("The image of later parts, where a start is struck before and behind its first operation.")
def start_struck_over_two_images():
    first, second = magic(400, 18), magic(500, 19)
    yield from (TWO, start(first, 96), start(second, 96, image=1), start(first, 96))
    yield from ("arm fail progress2 1 none", start(second, 200, False, 1), part(second, 96, 104))
    yield "arm fail progress2-gate 1 all"
    yield from (start(second, 200, False, 1), part(second, 200, 208), start(first, 96), "arm fail slot3 1 none")
    yield start(second, 200, image=1)
    yield from (part(first, 96, 104), part(second, 104, 112), "arm cut slot3 1 all", start(second, 32, False, 1))
    yield from ("boot", part(first, 104, 112))


@case("A part of the second image is cut, and its page is saved by the next start; the first image is as it was.")
def two_images_part_cut():
    yield from (TWO, start(LARGE, 480, image=1), "arm cut slot3 1 all", part(LARGE, 480, 960), "arm cut scratch2 1 5")
    yield "boot"
    yield from ("arm cut progress2-gate 1 none", "boot", "arm fail slot3 2 6", "boot", "boot")
    yield from (part(LARGE, 480, 960, None, 1), LIST)


@case("A start gives up an upload of the first image, then of the second; it is cut and fails within each.")
def two_images_settle():
    yield TWO
    for number in range(1, 9):
        for image, region in ((0, "progress-gate"), (1, "progress2-gate")):
            yield from (start(SMALL, 96, bytes(32), image), f"arm fail {region} 2 none")
            yield part(SMALL, 96, 300, None, image)
        yield from (f"arm {'fail' if number % 2 else 'cut'} any {number} 77", "boot", "boot")


@case("A request on both images that fails in one leaves the other mounted.")
def two_images_fail():
    yield from (TWO, start(NEW, 172), start(NEXT, 132, image=1), "arm fail slot3 1 1", listed(hash_of(NEXT)), LIST)
    yield "arm fail slot2 1 2"
    yield from (listed(hash_of(OTHER), True), LIST, "arm fail slot1 1 3", listed(hash_of(NEW), True))
    yield from ("arm fail progress2 1 none", ask("erase", slot=3))
    yield from ("arm cut slot2 1 all", listed(hash_of(OTHER), True), "boot", listed(hash_of(NEW)), "boot")


@case("Nothing begins in the regions of a second image where there is one.")
def regions_of_no_image():
    for region in ("slot2", "slot3", "progress2", "progress2-gate", "scratch2"):
        yield from (f"arm cut {region} 1 all", start(NEW, 172), listed(None, True), ask("erase"), "boot")


# Settings.


@case("A setting that runs, is forgotten by a boot, and is kept once it is saved.")
def saved_setting():
    write = packet(3, 0, 2, bytes.fromhex("a2646e616d6561616376616c4101"), sequence=8)
    yield from (write, "boot", value_of("a"), write, SAVE, "boot", value_of("a"), setting("a", b"\x02"), LOAD)
    yield value_of("a")
    yield from (ask("setting_delete", name="a"), value_of("a"), ask("setting_delete", name="a"), ask("commit"), LOAD)
    yield from (value_of("a"), "boot")


@case("The limits of names, values and the stored form.")
def limits_of_settings():
    yield from (setting("a", bytes(129)), setting("a", bytes(128)), setting("", b""), setting("x" * 33, b""))
    yield setting("x" * 32, b"")
    yield from (setting("\u00e9" * 16, b"1"), setting("\u00e9" * 16 + "x", b"1"), value_of(""), value_of("y" * 33))
    yield ask("setting_delete", name="")
    yield from (ask("setting_delete", name="y" * 33), ask("setting_delete", 0, name="y"), value_of("a", 0))
    yield from (value_of("a", 3), value_of("a", 999))
    yield "boot"
    yield from (setting(f"{number:02}", b"") for number in range(33))
    yield from (setting("31", bytes(128)), SAVE, "boot", setting("zz", b""), ask("setting_delete", name="00"))
    yield from (setting("zz", b""), LOAD)
    yield from (ask("setting_delete", name=f"{number:02}") for number in range(32))
    yield from (setting(f"{number:032}", bytes(128)) for number in range(19))
    yield from (setting("z" * 22, bytes(128)), setting("z" * 23, bytes(128)), setting("z" * 22, b""), setting("y", b""))
    yield from (SAVE, "boot")


@case("One changed setting is a cell of two writes, none is nothing, and a set of them is a side of its own.")
def cells_of_settings():
    yield from (setting("aa", b"\x41"), "arm cut settings 3 none", SAVE, SAVE, setting("aa", b"\x42"), SAVE, "boot")
    yield value_of("aa")
    for number in range(30):
        yield from (setting("aa", bytes([number])), SAVE)
    yield from ("boot", ask("setting_delete", name="aa"), SAVE, "boot", setting("a", b""), setting("b", b"\x01"))
    yield from ("arm cut settings-gate 1 none", SAVE)
    yield from ("boot", value_of("a"), value_of("b"), setting("a", b""), setting("b", b"\x01"))
    yield from ("arm cut settings-gate 1 all", SAVE, "boot")


@case("A save is struck at each of its operations; what was saved before is kept, or what was to be saved is.")
def struck_saves():
    for kind in ("cut", "fail"):
        for number in range(1, 5):
            for left in ("none", "all", "12345"):
                yield from (setting("a", bytes([number])), f"arm {kind} settings {number} {left}", SAVE, SAVE, LOAD)
                yield from (value_of("a"), "boot")
                yield from (setting("b", randbytes(90, number)), setting("c", randbytes(100, number)))
                yield from (f"arm {kind} settings {number} {left}", SAVE, "boot", SAVE)


# Files.


@case("A file is written, read and hashed; a boot forgets it; a ninth name and a file that is too long.")
def files():
    yield from (write_file("a", b"abc"), ask("file_hash", name="a"), ask("file_status", name="a"), "boot")
    yield ask("file_status", name="a")
    yield from (write_file(f"{number}", b"") for number in range(9))
    yield from (write_file("0", b"", 0, 16385), write_file("0", b"", 0, 16384), write_file("0", b"", 0, 4294967295))
    yield from (ask("file_types"), ask("file_close"))


@case("Parts of files: at the end, elsewhere, past the length, and begun anew.")
def parts_of_files():
    yield from (write_file("f", b"1234", 0, 10), write_file("f", b"9", 3), write_file("f", b"5678", 4))
    yield from (write_file("f", b"9ab", 8), write_file("f", b"9a", 8))
    yield from (write_file("f", b"", 10), write_file("f", b"x", 10), write_file("g", b"x", 1), write_file("f", b"x", 0))
    yield from (write_file("f", b"y", 1), LIST)
    yield from (write_file("f", randbytes(1500, 1), 0, 4000), write_file("f", randbytes(1500, 2), 1500))
    yield from (ask("file_read", name="f", off=0), ask("file_read", name="f", off=1024))
    yield from (ask("file_read", name="f", off=2048), ask("file_read", name="f", off=3000))
    yield from (ask("file_read", name="f", off=3001), ask("file_read", 0, name="g", off=0))


@case("The order of the refusals of a part of a file, in both versions.")
def refused_files():
    for version in (0, 1):
        for name in ("", "n" * 65, "n" * 64, "\u00e9" * 33):
            yield ask("file_write", version, name=name, off=0, data=b"x" * 9)
            yield ask("file_write", version, name=name, off=0, data=b"x" * 9, len=16385)
            yield ask("file_write", version, name=name, off=0, data=b"x" * 9, len=8)
            yield ask("file_write", version, name=name, off=5, data=b"x")
            yield from (ask("file_read", version, name=name, off=0), ask("file_status", version, name=name))
            yield ask("file_hash", version, name=name, type="crc32")


@case("Hashes of parts of a file.")
def hashes_of_files():
    yield write_file("f", randbytes(2000, 3), 0, 2000)
    pieces = [(None, None), (0, 0), (0, 2000), (0, 4294967295), (1, None), (1999, 5), (2000, None), (2001, None)]
    for begun, length in pieces + [(7, 100), (500, 0)]:
        yield ask("file_hash", name="f", off=begun, len=length)
        yield ask("file_hash", name="f", type="sha256", off=begun, len=length)
    yield from (ask("file_hash", name="f", type="crc32"), ask("file_hash", 0, name="f", type=""))
    yield ask("file_hash", name="g", type="crc32")


# Power.


@case("A reset is answered and followed by a boot, which may be struck; a device that is down answers nothing.")
def resets():
    yield from (ask("reset"), ask("reset", 0), start(LARGE, 480), "arm cut slot1 1 3", part(LARGE, 480, 960))
    yield from (part(LARGE, 480, 960), ask("echo", d="x"), b"\x00")
    yield from ("arm cut scratch 1 4", "boot", "arm fail scratch 1 5", "boot", ask("reset"), "boot", "arm read any 1")
    yield from (ask("reset"), "boot", ask("statistics", name="smp"))


@case("An arm is replaced by the next, waits over boots, and is gone once it struck.")
def arms():
    yield from ("arm cut any 1 none", "arm cut any 1000000 none", listed(None, True), "arm cut slot1 1 none", "boot")
    yield from ("boot", start(NEW, 100), "boot")
    yield from (start(NEW, 100), "arm fail progress-gate 2 4294967295", part(NEW, 96, 104), part(NEW, 104, 112))
    yield from (part(NEW, 112, 120), part(NEW, 104, 112), LIST)
    yield from ("arm read any 1", "arm fail any 1 0", start(NEXT, 40), start(NEXT, 40), "boot")


@case("Pages of 4096 bytes, which are as large as a side of a bank, and many of them.")
def large_pages():
    file = make_image(randbytes(20000, 20), (9, 8, 7), 6)
    yield "flash 4096 8 17 base.img"
    for number, one in enumerate(parts(file, 1900)):
        yield from (f"arm cut any 2 {number}", one, "boot", one)
    yield from (setting("a", b"1"), setting("b", b"2"), "arm cut settings 1 5", SAVE, "boot", SAVE, LIST, ask("erase"))
    yield "boot"


@case("Units of two and pages of 2048 bytes over two images.")
def units_of_two():
    file = make_image(randbytes(5001, 21), (9, 8, 7), 6)
    yield "flash 2048 2 5 other.img base.img"
    for number, one in enumerate(parts(file, 777, 1)):
        yield from (f"arm fail any {number % 3 + 1} {number}", one, one, one)
    yield from (LIST, listed(hash_of(file), True), "boot", LIST)


# Clients.


def turns(count):
    """Packets that arrive at once, and so do their replies."""
    return ["up new", "down new"] * count


def struck_upload(armed, image=""):
    """A client's upload whose second part is struck, up to what follows the cut."""
    yield from (f"client 1 upload app.img 480 only{image}", "up new", "down new", armed, "up new")


@case("A client's part is cut: the packet that it sends again is answered as if nothing had been.")
def client_part_cut():
    yield from (*struck_upload("arm cut slot1 1 all"), "boot", "quiet 1", "up new", *turns(5))


@case("A client's part is cut, and so is the saving of its page, twice.")
def client_rescue_cut():
    yield from (*struck_upload("arm cut slot1 1 all"), "arm cut slot1 1 7", "boot", "boot", "quiet 1", "up new")
    yield "down new"
    yield from ("arm cut slot1 1 all", "up new", "arm cut scratch 1 7", "boot", "boot", "quiet 1", *turns(4))


@case("The record of a client's part is cut at its gate, with nothing and with all of it left.")
def client_record_cut():
    yield from (*struck_upload("arm cut progress-gate 1 none"), "boot", "quiet 1", "up new", "down new")
    yield from ("arm cut progress-gate 1 all", "up new", "boot", "quiet 1", *turns(4))


@case("The record of the part after a client's next one is cut at its gate.")
def client_second_record_cut():
    yield from (*struck_upload("arm cut progress-gate 2 none"), "down new", "up new", "boot", "quiet 1", *turns(4))


@case("A client's upload of a second image is cut within a part.")
def client_part_cut_of_a_second_image():
    yield from ("flash 512 8 16 base.img base.img", *struck_upload("arm cut slot3 1 all", " 1"), "boot", "quiet 1")
    yield from turns(6)


@case("Uploads with a test and with a confirming mark, and other clients that are refused meanwhile.")
def client_marks():
    yield from ("client 1 upload next.img 700 test", *turns(4), "boot", "client 2 upload app.img 480 only", *turns(1))
    yield "client 3 list"
    yield from (*turns(1), "client 4 upload next.img 700 confirm", *turns(2), "client 5 upload other.img 93 only 1")
    yield from turns(1)


@case("A mark with a confirming end is cut between its writes; the client asks again.")
def client_mark_cut():
    yield from ("client 1 upload next.img 1900 confirm", *turns(1), "arm cut slot1 2 none", "up new", "boot", "quiet 1")
    yield from (*turns(1), "boot")


@case("Two clients' uploads by turns, with parts that arrive late and replies that come twice.")
def clients_by_turns():
    yield from ("client 1 upload app.img 480 test", "up new", "client 2 upload next.img 300 test", "down 1", "up 2")
    yield from ("down 2", "up 3", "down 3")
    yield from ("up 1", "down 1", "up 4", "down 4", "down new", "up new", "down new", "up 3", "up 4", "down 1")
    yield from ("quiet 2", "up new", "down new")
    yield from (*turns(3), "quiet 1", *turns(6), "boot")


@case("An upload of a large image, in which every fifth reply is lost, and a cut falls.")
def large_upload():
    yield "flash 4096 8 17 base.img"
    yield "client 1 upload big.img 480 test"
    for number in range(1, 173):
        yield from ("up new", "quiet 1" if number % 5 == 0 else "down new")
        if number == 101:
            yield from ("arm cut any 1 7", "up new", "boot", "quiet 1")
    yield "boot"


@case("Waits that end in no answer, by quiet and by strangers; packets and replies that are not there.")
def waits():
    yield from ("up new", "down new", "up 1", "down 7", "client 1 echo hi", "down new")
    yield from ["quiet 1"] * 9
    yield from ("quiet 1", "up 9", "down 1", "client 2 echo \u00e9\u00e8", "up 10", "client 3 list", "up new", "down 2")
    yield from ("down 2", "down 3", "quiet 3")
    yield from ("client 4 echo hi", "client 5 get a", "up 12")
    yield from ("client 6 set b 01", *turns(1))
    yield from ["down new"] * 130
    yield from ("up 4294967295", "down 4294967295", "quiet 2")


@case("Settings, a file, its reading and a list, one client after the other.")
def jobs_in_turn():
    yield from ("client 1 set a 01", *turns(2), "client 2 put text a", *turns(1), "client 3 get a", *turns(1))
    yield from ("client 4 list", *turns(1), "boot")


@case("Files of several parts, of no bytes and of too many, put and read with losses; settings that are refused.")
def jobs_with_losses():
    yield from ("client 1 put parts p", *turns(1), "up new", "quiet 1", *turns(2), "up 1", "client 2 get p", "up new")
    yield from ("down new", *turns(2))
    yield from ("client 3 put empty e", *turns(1), "client 4 get e", *turns(1), "client 5 put long l", *turns(1))
    yield from ("client 6 get none", *turns(1))
    yield from ("client 7 set a - b 00ff a 22", "up new", "boot", "down new", *turns(3), "boot", "client 8 put parts p")
    yield from (*turns(2), "boot", *turns(4))


@case("Small parts over units of eight bytes: what doesn't fill a unit is sent again, and a job may stall.")
def small_parts():
    yield from ("client 1 upload base.img 33 only", *turns(5), "client 2 upload other.img 47 test", "up new")
    yield "down new"
    yield from ["up new", "down new", "raw " + ask("erase").hex()] * 90


@case("A late part of another file is tagged, and does not enter.")
def late_tagged_part():
    yield from ("client 1 upload app.img 480 only", *turns(1), "client 2 upload next.img 480 only", "up 2", "up 3")
    yield from ("down 3", "up 2", "down 4")
    yield from ("up 4", "down new", "up new", "up 2", "down 4", *turns(3))
