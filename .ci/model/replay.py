"""The transcript of a schedule."""

from .client import job_of
from .device import Device
from .flash import Arm, Fault, Flash, Geometry, Off
from .image import DEFAULT_IMAGE

END = "end sent 0 answered 0 done 0"


class World:
    """A device, its flash and its power, and the clients with all that they sent and were answered."""

    def __init__(self, geometry, images, load=None):
        self.load = load
        self.jobs, self.sent, self.answered, self.done = [], [], [], 0
        self.flash = Flash(geometry)
        self.device = Device(self.flash)
        self.device.format(images)
        self.device.start()
        self.is_up = True

    def handle(self, packet):
        """The reply to a packet, or a word in place of it; and the lines of a boot that follows."""
        if not self.is_up:
            return "down", []
        try:
            answered = self.device.answer(packet)
        except Off:
            self.is_up = False
            return "cut", []
        if answered is None:
            return "dropped", []
        reply, is_reset = answered
        return reply, self.boot() if is_reset else []

    def raw(self, packet):
        """The lines of a packet to the device."""
        reply, lines = self.handle(packet)
        return ["raw " + (reply if isinstance(reply, str) else reply.hex())] + lines

    def boot(self):
        """The line of a boot."""
        self.flash.on, self.is_up = True, False
        try:
            self.device.start()
        except Off:
            return ["boot cut"]
        except Fault:
            return ["boot fault"]
        self.is_up = True
        return [self.device.shown()]

    def arm(self, kind, region, after, left="none"):
        left = int(left) if left.isdigit() else left
        self.flash.arm = Arm(kind, region, int(after), left)
        return ["arm"]

    def move(self, client, what):
        """The words of a client's move; a packet that it sends gets a number."""
        if what == "send":
            self.sent.append((client, self.jobs[client - 1].packet))
            return f"send {len(self.sent)}"
        self.done += what == "done"
        return what

    def client(self, *words):
        """The line of a client that begins a job."""
        self.jobs.append(job_of(words[1:], self.load))
        return [f"client {words[0]} {self.move(len(self.jobs), self.jobs[-1].send())}"]

    def quiet(self, client):
        return [f"quiet {client} {self.move(int(client), self.jobs[int(client) - 1].quiet())}"]

    def up(self, which):
        """The lines of a client's packet to the device."""
        number = len(self.sent) if which == "new" else int(which)
        if not 1 <= number <= len(self.sent):
            return [f"up {number} none"]
        client, packet = self.sent[number - 1]
        reply, lines = self.handle(packet)
        if isinstance(reply, str):
            return [f"up {number} {reply}"]
        self.answered.append((client, reply))
        return [f"up {number} reply {len(self.answered)} {reply.hex()}"] + lines

    def down(self, which):
        """The line of a reply to its client."""
        number = len(self.answered) if which == "new" else int(which)
        if not 1 <= number <= len(self.answered):
            return [f"down {number} none"]
        client, reply = self.answered[number - 1]
        return [f"down {number} {self.move(client, self.jobs[client - 1].hear(reply))}"]

    def event(self, words):
        """The lines of one line of a schedule."""
        if words[0] == "raw":
            return self.raw(bytes.fromhex(words[1]))
        return getattr(self, words[0])(*words[1:])

    def end(self):
        """The last line."""
        return [f"end sent {len(self.sent)} answered {len(self.answered)} done {self.done}"]


def world_of(words, load):
    """The world of a flash line; `load` gives the bytes of a file."""
    numbers, images = [int(word) for word in words[1:4]], [load(word) for word in words[4:]]
    return World(Geometry(*numbers, len(images)), images, load)


def default_world(load=None):
    return World(Geometry(512, 8, 16, 1), [DEFAULT_IMAGE], load)


def events_of(schedule):
    """The words of the lines that are not skipped."""
    return [line.split(" ") for line in schedule.splitlines() if line and not line.startswith("#")]


def replay(schedule, load):
    """The transcript of a schedule; `load` gives the bytes of a file that it names."""
    events = events_of(schedule)
    world = world_of(events.pop(0), load) if events and events[0][0] == "flash" else default_world(load)
    lines = [line for words in events for line in world.event(words)]
    return "".join(line + "\n" for line in lines + world.end())
