"""What a loss of power may leave of the one file of a run, by its record of calls and the rules of docs/CRASH_MODEL.md: what was written since the
last sync that succeeded may be there or not, or be anything, and so may the length past the one at that sync; what was synced is there. A name may
be lost until its folder was synced.
"""

from dataclasses import dataclass, field


@dataclass
class Disk:
    """The file as it is read, as it was at the last sync, and the ranges that were written since. A file that is not there is None. What other file a
    run has is named beside it: each sync of no file is one of the folder."""
    name: str
    seen: bytearray = None
    synced: bytes = None
    pending: list = field(default_factory=list)
    named: bool = False
    beside: str = None

    @staticmethod
    def of(name, before, beside=None):
        """A file that a run finds, and that has outlasted all before; None: there is none."""
        return Disk(name, beside=beside) if before is None else Disk(name, bytearray(before), bytes(before), named=True, beside=beside)

    def carry_out(self, call):
        word, *rest = call.words.split(" ")
        if call.failed:
            return
        if word == "open" and rest == [self.name, "create"] and self.seen is None:
            self.seen, self.synced = bytearray(), b""
        elif word == "write" and rest[0] == self.name:
            self.seen.extend(bytes(max(0, call.place - len(self.seen))))
            self.seen[call.place:call.place + len(call.moved)] = call.moved
            self.pending.append((call.place, call.moved))
        elif word == "sync" and rest[0] == self.name:
            self.synced, self.pending = bytes(self.seen), []
        elif word == "sync" and rest[0] != self.beside and self.seen is not None:
            self.named = True

    def with_written(self, written):
        """The file as it was synced, with these ranges written into it."""
        image = bytearray(self.synced)
        for place, put in written:
            image.extend(bytes(max(0, place - len(image))))
            image[place:place + len(put)] = put
        return bytes(image)

    def images(self, chance):
        """Some of the files that may be left: with nothing of what is pending, all of it, all of it as ones, some of the writes, and parts of them."""
        if self.seen is None:
            return [None]
        images = {self.with_written([]), bytes(self.seen), self.with_written([(place, b"\xff" * len(put)) for place, put in self.pending])}
        images.add(self.with_written([write for write in self.pending if chance.random() < 0.5]))
        images.add(self.with_written([(place, put[:chance.randrange(len(put) + 1)]) for place, put in self.pending]))
        return sorted(images) + ([] if self.named else [None])


def moments(calls, disk):
    """The numbers of the calls, from 0, each with the disk as it stands behind it."""
    yield 0, disk
    for number, call in enumerate(calls, 1):
        disk.carry_out(call)
        yield number, disk
