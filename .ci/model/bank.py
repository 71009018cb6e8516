"""A body with a list of cells, kept on two sides of which the newest counts."""

from .flash import GATE, SIDE, filled

HEAD = 16  # the gate and the head of a side
LARGEST_BODY = 4080


def sevens(number, count):
    """A number as bytes of seven bits, the most significant first."""
    return bytes(number >> 7 * (count - 1 - n) & 0x7F for n in range(count))


def from_sevens(held):
    number = 0
    for byte in held:
        number = number << 7 | byte
    return number


def generation_of(side):
    """The generation of a side; 0 where it is not valid."""
    head = side[8:16]
    if side[:8] != GATE or head[7] != 1 or max(head[:7]) > 0x7F or from_sevens(head[5:7]) > LARGEST_BODY:
        return 0
    generation = from_sevens(head[:5])
    return generation if generation <= 0xFFFFFFFF else 0


class Bank:
    """What the bank at a place held when it was opened or changed last; it is to be opened before anything else."""

    def __init__(self, flash, place, cell):
        self.flash, self.cell = flash, cell
        self.places = place, place + SIDE
        self.stride = cell + -cell % 8 + 8
        self.sure = False

    def make(self, body):
        """Writes the first side of a bank over FF."""
        self.newest, self.generation = 1, 0
        self.replace(body)

    def open(self):
        sides = [self.flash.read(place, SIDE) for place in self.places]
        generations = [generation_of(side) for side in sides]
        self.newest = 0 if generations[0] >= generations[1] else 1
        self.generation = generations[self.newest]
        if self.generation == 0:
            raise AssertionError("a bank without a valid side")
        side = sides[self.newest]
        length = from_sevens(side[13:15])
        self.body = side[HEAD:HEAD + length]
        self.read_cells(side, HEAD + length + -length % 8)
        self.sure = True

    def read_cells(self, side, first):
        """The cells whose gate stands, and the place of the first one behind all that were begun."""
        begun = len(side.rstrip(b"\xff"))
        self.next = first + max(0, -(-(begun - first) // self.stride)) * self.stride
        cells = [side[at:at + self.stride] for at in range(first, self.next, self.stride)]
        self.cells = [held[:self.cell] for held in cells if held[-8:] == GATE]

    def is_full(self):
        return self.next + self.stride > SIDE

    def replace(self, body):
        """Writes the other side: head and body, then its gate."""
        self.sure = False
        other = 1 - self.newest
        place = self.places[other]
        self.flash.clear(place, place + SIDE)
        head = sevens(self.generation + 1, 5) + sevens(len(body), 2) + b"\x01"
        self.flash.write(place + 8, head + filled(body, 8, b"\x00"))
        self.flash.write(place, GATE)
        self.newest, self.generation, self.body, self.cells = other, self.generation + 1, body, []
        self.next = HEAD + len(body) + -len(body) % 8
        self.sure = True

    def append(self, cell):
        """Writes a cell behind the others: its bytes, then its gate."""
        self.sure = False
        place = self.places[self.newest] + self.next
        self.flash.write(place, filled(cell, 8, b"\x00"))
        self.flash.write(place + self.stride - 8, GATE)
        self.cells.append(cell)
        self.next += self.stride
        self.sure = True
