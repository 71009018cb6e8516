"""Clients: one request open at a time, and the jobs that are made of requests."""

from hashlib import sha256

from . import cbor
from .asking import ask
from .image import good_image
from .packet import Failure, is_kind, read_packet

WAITS, STRANGERS = 9, 64
PART, PART_PACKETS = 512, 512
LARGEST_GROUP = 65535


def is_odd(number):
    """Whether something is a whole number that no key may have."""
    return isinstance(number, int) and not isinstance(number, bool) and not is_kind(number, "u")


def refusal_of(pairs):
    """The error that an answer is; None where it is none. What is no answer at all is refused."""
    inner = pairs["err"] if isinstance(pairs.get("err"), dict) else {}
    if is_odd(pairs.get("rc")) or is_odd(inner.get("rc")):
        raise cbor.Refused
    if is_kind(inner.get("rc"), "u") and inner["rc"] != 0:
        if not is_kind(inner.get("group"), "u") or inner["group"] > LARGEST_GROUP:
            raise cbor.Refused
        return Failure(inner["group"], inner["rc"])
    if is_kind(pairs.get("rc"), "u") and pairs["rc"] != 0:
        return Failure(None, pairs["rc"])
    return None


# What an answer to each kind of question has to have, and what it may have.
ANSWERS = {
    "done": ({}, {}),
    "echo": ({"r": "t"}, {}),
    "images": ({"images": "l"}, {}),
    "offset": ({"off": "u"}, {"match": "f"}),
    "file_part": ({"off": "u", "data": "b"}, {"len": "u"}),
}


def is_value(pairs, key, kind):
    return isinstance(pairs.get(key), list) if kind == "l" else is_kind(pairs.get(key), kind)


def answer_of(data, asked):
    """The failure or the pairs that an answer is; None where it is no answer to this question."""
    try:
        pairs = cbor.read_map(data)
        failure = refusal_of(pairs)
    except cbor.Refused:
        return None
    if failure:
        return failure
    due, optional = ANSWERS[asked]
    wrong = [key for key, kind in due.items() if not is_value(pairs, key, kind)]
    wrong += [key for key, kind in optional.items() if key in pairs and not is_value(pairs, key, kind)]
    return None if wrong else pairs


class Job:
    """A job is a generator of questions that is sent their answers; this is its client."""

    def __init__(self, questions, most=None):
        self.questions, self.most = questions, most
        self.sequence, self.sent, self.ended = 0, 0, False
        self.open(next(questions))

    def open(self, question):
        """Begins a request."""
        what, self.asked, fields = question
        self.packet = ask(what, 1, self.sequence % 256, **fields)
        self.sequence += 1
        self.waits, self.strangers = 0, 0

    def send(self):
        """The move that sends the open packet, or ends the job where too many were sent."""
        if self.most is not None and self.sent == self.most:
            return self.end("failed stalled")
        self.sent += 1
        return "send"

    def end(self, how):
        self.ended = True
        return how

    def quiet(self):
        """The move at the end of a wait."""
        if self.ended:
            return "over"
        self.waits, self.strangers = self.waits + 1, 0
        return self.end("failed no-answer") if self.waits == WAITS else self.send()

    def matched(self, raw):
        """The answer that a packet is to the open request, or None."""
        heard, own = read_packet(raw), read_packet(self.packet)
        if heard is None or heard.version > 1 or heard.operation != own.operation + 1:
            return None
        if (heard.group, heard.command, heard.sequence) != (own.group, own.command, own.sequence):
            return None
        return answer_of(heard.data, self.asked)

    def hear(self, raw):
        """The move after a packet."""
        if self.ended:
            return "over"
        answer = self.matched(raw)
        if answer is None:
            self.strangers += 1
            return self.quiet() if self.strangers == STRANGERS else "wait"
        if isinstance(answer, Failure):
            group = "smp" if answer.group is None else answer.group
            return self.end(f"failed refused {group} {answer.number}")
        return self.go_on(answer)

    def go_on(self, answer):
        """The next question, or the end."""
        try:
            question = self.questions.send(answer)
        except StopIteration as stop:
            return self.end(stop.value or "done")
        self.open(question)
        return self.send()


def upload(file, chunk, ending, image):
    """The questions of an upload."""
    digest, own = sha256(file).digest(), image or None
    begun = 0
    while begun != len(file):
        if begun > len(file):
            begun = 0
        length = None if begun else len(file)
        fields = {"image": own, "len": length, "off": begun, "sha": digest, "data": file[begun:begun + chunk]}
        answer = yield "upload", "offset", fields
        if answer.get("match") is False:
            return "failed mismatch"
        begun = answer["off"]
    if ending != "only":
        yield "image_set", "done", {"hash": good_image(file).hash, "confirm": ending == "confirm" or None}
    return "done"


def put(file, name):
    """The questions of a file that is put on the device; one of no bytes has a start too."""
    begun = None
    while begun != len(file):
        if begun is None or begun > len(file):
            begun = 0
        fields = {"off": begun, "data": file[begun:begun + PART], "len": None if begun else len(file), "name": name}
        answer = yield "file_write", "offset", fields
        begun = answer["off"]


def get(name):
    """The questions of a file that is read."""
    held, length = 0, None
    while held != length:
        answer = yield "file_read", "file_part", {"off": held, "name": name}
        if answer["off"] == 0 and "len" in answer:
            length = answer["len"]
        if answer["off"] == held and length is not None and held + len(answer["data"]) <= length:
            held += len(answer["data"])


def set_all(words):
    """The questions of settings and their save."""
    for name, value in zip(words[::2], words[1::2]):
        yield "setting_write", "done", {"name": name, "val": b"" if value == "-" else bytes.fromhex(value)}
    yield "save", "done", {}


def one(what, asked, **fields):
    yield what, asked, fields


def job_of(words, load):
    """The job of its words; `load` gives the bytes of a file."""
    what, words = words[0], words[1:]
    if what == "upload":
        file, chunk = load(words[0]), int(words[1])
        return Job(upload(file, chunk, words[2], len(words) - 3), 64 + 8 * (len(file) // (chunk - 7) + 1))
    if what == "put":
        return Job(put(load(words[0]), words[1]), PART_PACKETS)
    if what == "get":
        return Job(get(words[0]), PART_PACKETS)
    if what == "set":
        return Job(set_all(words))
    return Job(one("echo", "echo", d=words[0]) if what == "echo" else one("image_list", "images"))
