"""Settings: those that run, and those that are saved on flash."""

from .bank import Bank
from .flash import Layout

CELL = 168
LARGEST_NAME, LARGEST_VALUE, LARGEST_FORM, MOST = 32, 128, 3072, 32
NAME_LENGTH, NO_NAME, VALUE_LENGTH, FULL = 2, 3, 64, 65


def short(held):
    """A length in one byte, and the bytes."""
    return bytes([len(held)]) + held


def form_of(values):
    """The stored form of all settings."""
    pairs = b"".join(short(name) + short(values[name]) for name in sorted(values))
    return bytes([1, len(values)]) + pairs


def read_form(body):
    values, at = {}, 2
    for _ in range(body[1]):
        name = body[at + 1:at + 1 + body[at]]
        at += 1 + len(name)
        values[name] = body[at + 1:at + 1 + body[at]]
        at += 1 + len(values[name])
    return values


def cell_of(name, value):
    """The cell of one changed setting; the value is None where it was deleted."""
    held = b"\x02" + short(name) if value is None else b"\x01" + short(name) + short(value)
    return held.ljust(CELL, b"\x00")


def change(values, cell):
    """Does what a cell says."""
    end = 2 + cell[1]
    if cell[0] == 1:
        values[cell[2:end]] = cell[end + 1:end + 1 + cell[end]]
    else:
        values.pop(cell[2:end], None)


class Settings:
    """Names and values, as bytes."""

    def __init__(self, flash):
        self.bank = Bank(flash, Layout(flash.geometry, 0).settings, CELL)

    def format(self):
        self.bank.make(form_of({}))

    def open(self):
        """Reads what is saved."""
        self.bank.open()
        self.saved = read_form(self.bank.body)
        for cell in self.bank.cells:
            change(self.saved, cell)

    def load(self):
        """Makes what is saved run."""
        self.open()
        self.running = dict(self.saved)

    def save(self):
        """Saves what runs: one changed setting as a cell where one is free, more of them as a whole side."""
        if not self.bank.sure:
            self.open()
        names = [name for name in self.saved | self.running if self.saved.get(name) != self.running.get(name)]
        if len(names) == 1 and not self.bank.is_full():
            self.bank.append(cell_of(names[0], self.running.get(names[0])))
        elif names:
            self.bank.replace(form_of(self.running))
        self.saved = dict(self.running)

    def write(self, name, value):
        """The number of the error, or None where the setting now runs."""
        if len(value) > LARGEST_VALUE:
            return VALUE_LENGTH
        new = self.running | {name: value}
        if len(new) > MOST or len(form_of(new)) > LARGEST_FORM:
            return FULL
        self.running = new
        return None
