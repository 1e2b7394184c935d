"""Standard MIDI Files, read as the format has them, without the program: what `dump` prints of a file, what `dump --all` does, with `--at`, and both
with `--lenient`. And small files that have something of everything."""

MOST_FILE = 16_777_216
MOST_DATA = 65_536

SMALL = bytes.fromhex(
    "4D546864000000060000000101E058595A3100000002AABB4D54726B00000013"
    "00FF510307A12000903C4083603C0000FF2F00")
TWO_TRACKS = bytes.fromhex(
    "4D546864000000060001000200604D54726B0000000F00FF510303D09060900140"
    "00FF2F004D54726B000000136090024000FF510307A1200090034000FF2F00")
HEADER = SMALL[:14]


def file_of(content, header=HEADER):
    return header + b"MTrk" + len(content).to_bytes(4, "big") + content


FILES = {
    "two notes": SMALL,
    "two tracks": TWO_TRACKS,
    "frames": SMALL[:12] + b"\xE7\x28" + SMALL[14:],
    "exclusive": file_of(bytes.fromhex("00F0037D01F700F0027D0100F701F800FF2F00")),
    "no status": file_of(bytes.fromhex("00903C4000F001F7003C4000FF2F00")),
    "meta events": file_of(bytes.fromhex(
        "00FF03074C61222020E90A00FF0002010000FF58040603240800FF5902FD0100FF5405410003002800FF7F02430000FF60010500FF51010700FF2F00")),
    "running status": file_of(bytes.fromhex("00903C408100E000408F00C005070A00FF000212348000FF2F00")),
}


class Fault(Exception):
    pass


TEXTS = dict(enumerate("text copyright name instrument lyric marker cue program device".split(), 1))
# The word of a type and how many bytes each of its numbers has.
NUMBERS = {
    0x00: ("sequence", (2,)), 0x20: ("channel", (1,)), 0x21: ("port", (1,)), 0x2F: ("end", ()), 0x51: ("tempo", (3,)),
    0x54: ("smpte", (1,) * 5), 0x58: ("time", (1,) * 4),
}


def spaced(data):
    return "".join(f" {byte:02X}" for byte in data)


def quoted(data):
    return '"' + "".join(chr(byte) if 32 <= byte < 127 and byte not in b'"\\' else f"\\x{byte:02X}" for byte in data) + '"'


def meta_text(kind, data):
    """A meta event as `dump --all` prints it."""
    if kind in TEXTS:
        return f"{TEXTS[kind]} {quoted(data)}"
    if kind == 0x7F:
        return f"sequencer{spaced(data)}"
    if kind == 0x59 and len(data) == 2:
        return f"key {data[0] - 256 * (data[0] >= 128)} {data[1]}"
    word, sizes = NUMBERS.get(kind, ("", (-1,)))
    if len(data) != sum(sizes):
        return f"meta {kind:02X}{spaced(data)}"
    numbers, at = [word], 0
    for size in sizes:
        numbers.append(str(int.from_bytes(data[at:at + size], "big")))
        at += size
    return " ".join(numbers)


class Track:
    """One track's content, read as the format has it."""

    def __init__(self, data, at, end, number, frames, lenient):
        self.data, self.at, self.end, self.number, self.frames, self.lenient = data, at, end, number, frames, lenient
        self.begun, self.tick, self.running, self.skipped = at - 8, 0, None, 0
        # The running status of a strict reader; and what is forgiven, and where.
        self.strict, self.forgiven = None, []
        self.events, self.tempos, self.said = [], [], []
        self.say(f"track {number}")

    def say(self, line):
        self.said.append((self.begun, line))

    def byte(self):
        if self.at >= self.end:
            raise Fault(f"10 Truncated {self.begun}")
        self.at += 1
        return self.data[self.at - 1]

    def quantity(self):
        value = 0
        for _ in range(4):
            byte = self.byte()
            value = value * 128 + byte % 128
            if byte < 128:
                return value
        raise Fault(f"11 LongQuantity {self.begun}")

    def sized(self):
        size = self.quantity()
        if self.at + size > self.end:
            raise Fault(f"10 Truncated {self.begun}")
        self.at += size
        return self.data[self.at - size:self.at]

    def voice(self, data):
        """Data bytes are tested in their order, whether they are there before whether they are data."""
        status = self.running
        for place in range(1 if 0xC0 <= status < 0xE0 else 2):
            if place == len(data):
                data.append(self.byte())
            if data[place] >= 128:
                raise Fault(f"14 BadData {self.begun}")
        self.events.append((self.tick, bytes([status, *data])))
        self.say(f"{self.tick}{spaced([status, *data])}")

    def meta(self):
        kind, content = self.byte(), self.sized()
        self.say(f"{self.tick} {meta_text(kind, content)}")
        if kind == 0x51 and not self.frames:
            tempo = int.from_bytes(content, "big") if len(content) == 3 else 0
            if tempo:
                self.tempos.append((self.tick, tempo))
            else:
                self.skipped += 1
        return kind == 0x2F

    def exclusive(self, first):
        content = self.sized()
        self.say(f"{self.tick}{spaced([first, *content])}")
        data = content[:-1]
        if first == 0xF0 and content[-1:] == b"\xF7" and len(data) <= MOST_DATA and all(it < 128 for it in data):
            self.events.append((self.tick, b"\xF0" + content))
        else:
            self.skipped += 1

    def cancel(self):
        self.strict = None
        if not self.lenient:
            self.running = None

    def read(self):
        while True:
            if self.at == self.end:
                raise Fault(f"15 NoEndOfTrack {self.number}")
            self.begun = self.at
            self.tick += self.quantity()
            first = self.byte()
            if first < 0xF0:
                if first < 0x80 and self.running is None:
                    raise Fault(f"12 NoStatus {self.begun}")
                data = [first] if first < 0x80 else []
                if data and self.strict is None:
                    self.forgiven.append(("running status", self.begun))
                if self.lenient and 0xC0 <= first < 0xD0 and self.at < self.end and self.data[self.at] >= 0x80:
                    data = [self.byte() % 128]
                    self.forgiven.append(("program change", self.begun))
                self.running = self.strict = self.running if first < 0x80 else first
                self.voice(data)
            elif first in (0xF0, 0xF7):
                self.cancel()
                self.exclusive(first)
            elif first == 0xFF:
                self.cancel()
                if self.meta():
                    return self
            else:
                raise Fault(f"13 BadStatus {self.begun}")


def division_of(data):
    division = int.from_bytes(data[12:14], "big")
    if division >= 0x8000:
        if data[12] == 0xE3:
            raise Fault("8 DropFrame")
        if data[12] not in (0xE8, 0xE7, 0xE2):
            raise Fault("7 SmpteDivision")
    if division % (256 if division >= 0x8000 else 65536) == 0:
        raise Fault("6 ZeroDivision")
    return division


def header_of(data):
    if len(data) > MOST_FILE:
        raise Fault("16 TooLarge")
    if data[:4] != b"MThd":
        raise Fault("1 NotMidi")
    length = int.from_bytes(data[4:8], "big")
    if len(data) < 8 or length < 6 or len(data) < 8 + length:
        raise Fault("2 ShortHeader")
    kind, tracks = int.from_bytes(data[8:10], "big"), int.from_bytes(data[10:12], "big")
    if kind > 2:
        raise Fault("3 UnknownFormat")
    if kind == 2:
        raise Fault("4 Format2")
    if tracks != 1 if kind == 0 else tracks == 0:
        raise Fault("5 BadTrackCount")
    return kind, tracks, division_of(data), 8 + length


def content_of(data):
    """The file in a RIFF container of type RMID; all else as it is."""
    if data[:4] != b"RIFF" or data[8:12] != b"RMID":
        return data
    at = 12
    while at + 8 <= len(data):
        size = int.from_bytes(data[at + 4:at + 8], "little")
        if at + 8 + size > len(data):
            break
        if data[at:at + 4] == b"data":
            return data[at + 8:at + 8 + size]
        at += 8 + size + size % 2
    return data


class Whole:
    """A file that is whole, strictly or leniently."""

    def __init__(self, data, lenient=False):
        if lenient and len(data) <= MOST_FILE:
            data = content_of(data)
        self.kind, tracks, self.division, at = header_of(data)
        self.tracks = []
        while len(self.tracks) < tracks:
            if len(data) - at < 8:
                raise Fault("9 TrackMissing")
            end = at + 8 + int.from_bytes(data[at + 4:at + 8], "big")
            if end > len(data):
                raise Fault(f"10 Truncated {at}")
            if data[at:at + 4] == b"MTrk":
                self.tracks.append(Track(data, at + 8, end, len(self.tracks), self.division >= 0x8000, lenient).read())
            at = end
        self.head = f"format {self.kind} tracks {tracks} division {self.division}"

    def text(self):
        # (stable: by tick, and within one by track and place)
        events = sorted((it for track in self.tracks for it in track.events), key=lambda it: it[0])
        tempos = dict(sorted((it for track in self.tracks for it in track.tempos), key=lambda it: it[0]))
        if self.division < 0x8000:
            tempos = {0: tempos.get(0, 500_000), **{tick: it for tick, it in tempos.items() if tick}}
        lines = [self.head, *(f"tempo {tick} {tempo}" for tick, tempo in tempos.items())]
        lines += [f"{tick}{spaced(message)}" for tick, message in events]
        return "\n".join([*lines, f"skipped {sum(it.skipped for it in self.tracks)}", ""]).encode()

    def every(self, placed=False):
        lines = [(0, self.head), *(line for it in self.tracks for line in it.said)]
        return "".join(f"{place} {line}\n" if placed else f"{line}\n" for place, line in lines).encode()

    def forgiven(self):
        """A line for each kind of what was forgiven."""
        text = ""
        for kind in ("running status", "program change"):
            places = [at for track in self.tracks for which, at in track.forgiven if which == kind]
            text += f"forgiven {len(places)} {kind} {places[0]}\n" if places else ""
        return text.encode()


def read_file(data):
    """What `dump` prints of a file, and what `dump --all` does."""
    whole = Whole(data)
    return whole.text(), whole.every()
