"""A model of the device and its clients, written from the formats alone, apart from the program.

It holds a flash of plain bytes and shares no code with the program. `replay` prints the transcript of a schedule that
is in the grammar and whose images are good; the checks in the folder above compare it with what the program prints.
"""
