#!/usr/bin/env python3
"""Says what a receiver does over a script of calls, independently of the crates.

  tools/rehearse.py run < SCRIPT     what rehearse must print
  tools/rehearse.py samples          writes samples/NAME.txt with NAME.out, and the script that the check runs rehearse on
  tools/rehearse.py many N SEED      a random script of N calls
  tools/rehearse.py odd N SEED       N random lines, hardly one of which is understood
  tools/rehearse.py compare PROGRAM N    runs a program on N random scripts of 200 calls, and says where it prints something else

Everything here follows docs/REHEARSE.md and the pages that it names, without the crates' code."""
import os
import random
import re
import subprocess
import sys

sys.dont_write_bytecode = True
import sections
from sections import channel, english, location, section, source, string, text

HERE = os.path.dirname(os.path.dirname(os.path.abspath(__file__)))


# What a line asks for

def number(digits):
    """A decimal number of 32 bits, or None."""
    if len(digits) > 10 or not re.fullmatch(rb"0|[1-9][0-9]*", digits) or int(digits) >= 2 ** 32:
        return None
    return int(digits)


def numbers(pattern, value):
    """The numbers at the front of a value that the pattern finds there, and what follows them; or None."""
    found = re.match(pattern, value)
    read = [number(d) for d in found.groups()] if found else [None]
    return None if None in read else (read, value[found.end():])


def service(value):
    found = numbers(rb"([0-9]+)-([0-9]+),([0-9]+)", value)
    if not found or max(found[0]) > 65535:
        return None
    (major, minor, source_id), rest = found
    marks = rest.split(b",")[1:]
    if rest and not rest.startswith(b",") or len(set(marks)) < len(marks) or not set(marks) <= {b"controlled", b"paid", b"apart"}:
        return None
    return dict(pair=(major, minor), source=source_id, controlled=b"controlled" in marks, paid=b"paid" in marks, apart=b"apart" in marks)


def place(value):
    found = numbers(rb"([0-9]+),([0-9]+),([0-9]+)", value)
    return tuple(found[0]) if found and not found[1] else None


def hexadecimal(value):
    if len(value) % 2 or not re.fullmatch(rb"[0-9A-Fa-f]*", value):
        return None
    return bytes.fromhex(value.decode())


def one_of(*words):
    return lambda value: value.decode() if value in [w.encode() for w in words] else None


SETTINGS = {b"set": one_of("bus", "map"), b"service": service, b"start": number, b"place": place,
            b"path": one_of("in-band", "out-of-band"), b"clock": number}
CALLS = {b"section": hexadecimal, b"tick": number, b"choose": number, b"document": hexadecimal}


def asked(line):
    """The key and the value of a line that is understood, or None."""
    if line == b"begin":
        return b"begin", None
    key, equals, value = line.partition(b"=")
    if not equals or key not in SETTINGS and key not in CALLS:
        return None
    read = (SETTINGS.get(key) or CALLS[key])(value)
    return None if read is None else (key, read)


# The receiver

BUS = [dict(pair=(k + 1, 0), source=0, controlled=False, paid=False, apart=False) for k in range(16)]


def names_place(entry, here):
    state, county, part = entry
    if state == 0:
        return True
    if state != here[0]:
        return False
    return county == 0 or county == here[1] and (part == 0 or here[2] == 0 or part == here[2])


class Receiver:
    def __init__(self, services, shown, here, path, clock):
        self.services, self.here, self.in_band, self.clock = services, here, path == "in-band", clock
        self.home, self.last, self.alert = shown, None, None

    def first(self, kind, name):
        """The first service that has the pair or the source ID."""
        if name in (0, (0, 0)):
            return None
        return next((k for k, s in enumerate(self.services) if s[kind] == name), None)

    def if_apart(self, k):
        return k if k is not None and self.services[k]["apart"] else None

    def section(self, data):
        found = sections.read(data)
        if isinstance(found, int):
            return found, None
        last, self.last = self.last, found["sequence"]
        if last == self.last:
            return 1, None
        if found["priority"] == 0:
            return 2, None
        entry = next((k for k, e in enumerate(found["locations"]) if names_place(e, self.here)), None)
        if entry is None:
            return 3, None
        self.alert = self.kept(found)
        return 4, entry

    def kept(self, found):
        kind, ours = ("pair", "channel") if self.in_band else ("source", "source")
        details = self.first(kind, found["details"] if self.in_band else found["details_source"])
        sound = None if self.in_band else self.if_apart(self.first("source", found["audio"]))
        if sound is None:
            sound = self.if_apart(details)
        named = {name for k, name in found["exceptions"] if k == ours and name not in (0, (0, 0))}
        return dict(id=found["event_id"], priority=found["priority"], text=found["text"], details=details, sound=sound,
                    end=self.clock + found["seconds"] if found["seconds"] else None,
                    excepted={k for k, s in enumerate(self.services) if s[kind] in named})

    def tick(self, seconds):
        if seconds < self.clock:
            return 31, None
        self.clock = seconds
        if self.alert and self.alert["end"] is not None and self.alert["end"] <= seconds:
            self.alert = None
        return 0, None

    def choose(self, k):
        if k >= len(self.services):
            return 32, None
        self.home = k
        return 0, None

    def applies(self):
        if not self.alert or self.home in self.alert["excepted"]:
            return False
        mine, priority = self.services[self.home], self.alert["priority"]
        return not (mine["paid"] and 4 <= priority <= 7 or mine["controlled"] and 1 <= priority <= 3)

    def state(self):
        screen, sound, caption = self.home, None, b""
        if self.applies():
            caption, sound = self.alert["text"], self.alert["sound"]
            if sound is None and self.alert["priority"] >= 12 and self.alert["details"] is not None:
                screen = self.alert["details"]
        heard = b"own" if sound is None else b"%d" % sound
        event = b"%d" % self.alert["id"] if self.alert else b"none"
        return b"home=%d screen=%d sound=%s alert=%s caption=%s\n" % (self.home, screen, heard, event, caption)


# Documents

def fragments(area):
    """The fragments in the order in which they are met, or a refusal's number."""
    at, met, broken = 0, [], False
    while at < len(area):
        if at + 2 > len(area) or at + 2 + area[at + 1] > len(area):
            return 20
        body = area[at + 2:at + 2 + area[at + 1]]
        if area[at] == 3:
            good = len(body) >= 3 and body[0] >= 1 and body[1] == len(body) - 2
            broken = broken or not good
            met.append((body[0], body[2:]) if good else None)
        at += 2 + len(body)
    return 21 if broken else met


def document(data):
    found = sections.read(data)
    met = found if isinstance(found, int) else fragments(found["descriptors"])
    if not isinstance(met, int):
        named = sorted(n for n, _ in met)
        if not met:
            met = 22
        elif len(set(named)) < len(named):
            met = 23
        elif named != list(range(1, len(named) + 1)):
            met = 24
    if isinstance(met, int):
        return b"call=document refused=%d by=gather\n" % met
    words = found["text"].replace(b"&", b"&amp;").replace(b"<", b"&lt;").replace(b">", b"&gt;")
    whole = b"".join(f for _, f in sorted(met)).replace(b"<AlertText></AlertText>", b"<AlertText>" + words + b"</AlertText>", 1)
    return b"call=document bytes=%d\n%s\n" % (len(whole), whole)


# A script

def begin(settings, services):
    """The receiver, or None, and the line that says so."""
    here = settings.get(b"place", (6, 37, 0))
    start = 0
    refusals = [] if 1 <= here[0] <= 99 and 1 <= here[1] <= 999 and here[2] <= 9 else [51]
    if settings.get(b"set", "bus") == "bus":
        services = BUS
    else:
        start = settings.get(b"start", 0)
        if not 1 <= len(services) <= 256:
            refusals.append(41)
        if any(max(s["pair"]) > 1023 for s in services):
            refusals.append(42)
        if start >= len(services):
            refusals.append(43)
    if refusals:
        return None, b"call=begin refused=%d\n" % min(refusals)
    receiver = Receiver(services, start, here, settings.get(b"path", "in-band"), settings.get(b"clock", 0))
    return receiver, b"call=begin " + receiver.state()


def called(receiver, key, value):
    if key == b"document":
        return document(value)
    answer, entry = {b"section": receiver.section, b"tick": receiver.tick, b"choose": receiver.choose}[key](value)
    beside = b"" if entry is None else b" entry=%d" % entry
    return b"call=%s answer=%d%s %s" % (key, answer, beside, receiver.state())


def lines_of(data):
    lines = data.split(b"\n")
    if not lines[-1]:
        lines.pop()
    return [line[:-1] if line.endswith(b"\r") else line for line in lines]


def run(data, out):
    settings, services, receiver, begun = {}, [], None, False
    for count, line in enumerate(lines_of(data), 1):
        if not line or line.startswith(b"#"):
            continue
        none = b"call=none line=%d\n" % count
        key, value = asked(line) or (None, None)
        if key is None or begun and (key == b"begin" or key in SETTINGS) or key in settings:
            out.write(none)
        elif key == b"service":
            services.append(value)
        elif key in SETTINGS:
            settings[key] = value
        else:
            if not begun:
                begun = True
                receiver, said = begin(settings, services)
                out.write(said)
            if key != b"begin":
                out.write(none if receiver is None else called(receiver, key, value))


# Scripts that ship

def call(data):
    return "section=" + data.hex().upper()


def overlap():
    wind = dict(event_id=15, event_code=b"HWW", nature=english("High Wind Warning"), priority=8, details=(0, 0),
                alert=english("High winds until 6 pm"))
    action = dict(event_id=16, event_code=b"EAN", originator=b"EAN", nature=english("Emergency Action Notification"), priority=15, details=(5, 0),
                  alert=english("Listen to channel 5"), locations=[location(0, 0)])
    return [
        "# Two warnings that overlap. The viewer watches input 2 of a studio bus; channel 5-0 is input 4.",
        "place=6,37,0", "clock=1000", "begin", "choose=2", "",
        "# A high wind warning for 50 seconds: a caption, and the picture stays.",
        call(section(sequence=10, seconds=50, **wind)), "tick=1040", "",
        "# Ten seconds before its end it is extended by a new section: 30 seconds from now, so until 1070.",
        call(section(sequence=11, seconds=30, **wind)), "tick=1049",
        "# The same section again is a repeat and moves no end.",
        call(section(sequence=11, seconds=30, **wind)), "tick=1050",
        "# Stated once more, with the same end.",
        call(section(sequence=12, seconds=20, **wind)), "tick=1065", "",
        "# Before that end a notification overlaps it, with 0 seconds: it waits without end.",
        "# Its priority is 15 and it has no sound of its own, so its details channel takes the picture.",
        call(section(sequence=13, seconds=0, **action)), "tick=1070", "tick=4600", "tick=90000", "",
        "# The viewer may choose meanwhile. The picture stays with the alert, and will return to this choice.",
        "choose=7", "",
        "# At last a section states an end, six seconds away.",
        call(section(sequence=14, seconds=6, **action)), "tick=90004", "",
        "# Four seconds later it is put off by another four.",
        call(section(sequence=15, seconds=4, **action)), "tick=90007", "",
        "# No further extension comes: it is over, and the viewer's own choice is back.",
        "tick=90008"]


def cut_short():
    child = dict(event_id=18, event_code=b"CAE", nature=english("Child Abduction Emergency"), priority=11, details=(0, 0),
                 alert=english("Grey van, seen on Route 9"))
    abort = dict(event_id=97, event_code=b"ABT", nature=b"", priority=11, details=(0, 0), alert=b"")
    return [
        "# A station takes back an alert that is still on: it sends a pseudo event, whose code ABT stands for no real event.",
        "# The receiver knows nothing of codes. To it this is the next alert, for the same place, with no text and a short time.",
        "clock=0", "begin", "",
        "# A child abduction emergency, stated for 110 seconds.",
        call(section(sequence=12, seconds=110, **child)), "tick=10", "tick=18", "",
        "# 18 seconds in, the pseudo event replaces it whole: the caption is gone, and the end is now 21.",
        "# Its sequence number 7 is below 12. Numbers are only compared for being the same.",
        call(section(sequence=7, seconds=3, **abort)), "tick=20", "",
        "# Three seconds later it is over too.",
        "tick=21", "",
        "# The old alert does not come back by itself. If its section still goes round, it is new again after the other.",
        "tick=30", call(section(sequence=12, seconds=80, **child))]


MAP = ["set=map",
       "# 0: the news, 1: a school's channel with its own alerts, 2: films, paid, 3: access controlled, 4: a sound channel",
       "service=5-1,501", "service=12-1,256", "service=40-1,4001,paid", "service=41-1,4101,controlled,paid", "service=90-1,9001,apart"]


def exception():
    quake = dict(event_id=31, event_code=b"EQW", nature=english("Earthquake Warning"), priority=15, details=(5, 1), details_source=501,
                 alert=english("Drop, cover, hold on"))
    except_school = [channel(12, 1), source(501), channel(0, 0)]
    return [
        "# A channel with alerts of its own is excepted from an alert, and left alone.",
        *MAP, "path=in-band", "begin", "",
        "# The viewer watches the school's channel, 12-1.",
        "choose=1",
        "# The section has three exception entries: channel 12-1, source 501 and channel 0-0. In-band only channels count, and 0-0 names none.",
        "# The alert comes into force, and on this channel nothing is seen of it.",
        call(section(sequence=1, seconds=60, exceptions=except_school, **quake)), "tick=10", "",
        "# On any other channel it applies: its details channel 5-1 takes the picture.",
        "choose=2",
        "# The news channel is the details channel itself. Source 501 is its own, but that entry is for the other path.",
        "choose=0",
        "# Back on the excepted channel.",
        "choose=1", "tick=30", "",
        "# The next section excepts nothing, so that the viewer of 12-1 sees it as well.",
        call(section(sequence=2, seconds=20, **quake)), "tick=49", "tick=50"]


def paid():
    wind = dict(event_code=b"HWW", nature=english("High Wind Warning"), details=(90, 1))
    return [
        "# What a viewer has paid for is spared at priorities 4 to 7, and what is access controlled at priorities 1 to 3.",
        *MAP, "start=2", "path=in-band", "begin", "",
        "# The film of the viewer goes on at priority 7: an alert is in force, and nothing of it is shown.",
        call(section(sequence=1, event_id=1, priority=7, seconds=120, alert=english("Gusts to 60"), **wind)),
        "# On the news it applies. Its details channel 90-1 can be heard without leaving the picture, so only the sound is borrowed.",
        "choose=0",
        "# Channel 41-1 is controlled and paid: at priority 7 it is the payment that counts.",
        "choose=3", "choose=2", "",
        "# At priority 8 the film is no longer spared.",
        call(section(sequence=2, event_id=2, priority=8, seconds=120, alert=english("Gusts to 80"), **wind)), "",
        "# At priority 3 a paid film is not spared, and a controlled channel is.",
        call(section(sequence=3, event_id=3, priority=3, seconds=120, alert=english("Gusts to 40"), **wind)),
        "choose=3", "",
        "# At priority 4 this channel is spared for being paid.",
        call(section(sequence=4, event_id=4, priority=4, seconds=60, alert=english("Gusts to 45"), **wind)),
        "# The sound channel itself: it shows its own picture, and the sound borrowed is its own.",
        "choose=4", "tick=59", "tick=60"]


def month():
    """Thirty days: the clock every hour, a weekly test, a warning now and then, everything sent again and again."""
    rng = random.Random(30)
    yield "# Thirty days of a receiver's life. The clock is read every hour; each Monday at noon the weekly test is sent, eight times;"
    yield "# every few days there is a warning, whose section goes round every ten seconds until it is over, for here or for elsewhere."
    yield "set=map"
    yield from ["service=5-1,501", "service=12-1,256", "service=90-1,9001,apart", "path=out-of-band", "place=6,37,4", "clock=0", "begin"]
    sequence = 0
    for hour in range(720):
        now = hour * 3600
        if hour:
            yield "tick=%d" % now
        if hour % 168 == 12:
            sequence = (sequence + 1) % 32
            yield "# the weekly test: the first is answered 2, the others are repeats"
            for k in range(8):
                yield call(section(sequence=sequence, event_id=1000 + hour, event_code=b"RWT", nature=english("Required Weekly Test"), seconds=30, priority=0))
                yield "tick=%d" % (now + 10 * (k + 1))
        elif rng.random() < 0.02:
            sequence = (sequence + 1) % 32
            here = rng.random() < 0.7
            left = 120
            yield "# a warning for %s" % ("here" if here else "elsewhere")
            shape = dict(event_id=1000 + hour, event_code=b"FFW", nature=english("Flash Flood Warning"), priority=rng.choice([3, 7, 11, 15]), details=(0, 0),
                         details_source=rng.choice([0, 256, 501]), audio=rng.choice([0, 9001]), alert=english("Move to higher ground"),
                         locations=[location(6, 37, rng.choice([0, 4])) if here else location(6, rng.choice([59, 37]), 5)])
            data = section(sequence=sequence, seconds=left, **shape)
            for k in range(13):
                yield call(data)
                yield "tick=%d" % (now + 10 * (k + 1))
            if rng.random() < 0.5:
                yield "choose=%d" % rng.randrange(3)


def every_line():
    """Every kind of line, every answer and every refusal that a script can meet."""
    good = dict(seconds=20, event_id=16, details=(3, 1))
    d = english("Fire & <smoke>")
    yield "# Set-up lines in any order, each at most once; what is not understood changes nothing."
    yield from ["path=out-of-band", "clock=100", "set=map", "service=3-1,300,apart", "service=12-1,256,paid,controlled", "service=0-0,0",
                "service=7-0,700", "service=1023-1023,65535,apart,controlled,paid", "start=3", "place=6,37,5"]
    yield from ["path=in-band", "set=map", "start=3", "service=7-0,700,", "service=7-0,700,paid,paid", "service=7-0,700,free", "service=7-0",
                "service=65536-0,1", "service=1-1,65536", "service=01-1,1", "place=6,37", "place=6,37,0,0", "clock=4294967296", "set=tv", "path=", "tick=", "tick=-1",
                "tick=1x", "choose=+1", "begin=", "Begin", " begin", "begin ", "=", "document=0", "section=0G", "tick 5"]
    yield "begin"
    yield from ["begin", "clock=100", "service=1-1,1", "place=6,37,5", "start=0"]
    yield "# Out-of-band the details service goes by its source ID. Service 0 is apart, so its sound is borrowed."
    yield call(section(sequence=1, details_source=300, **good))
    yield "tick=119"
    yield call(section(sequence=1, details_source=300, **good))
    yield "# Equal readings are granted, an earlier one is not; at 120 the alert is over."
    yield from ["tick=119", "tick=118", "tick=120"]
    yield "# A service without a source ID is never named, and 700 is not apart: at priority 15 it takes the picture."
    yield call(section(sequence=2, details_source=0, audio=0, **good))
    yield call(section(sequence=3, details_source=700, audio=256, **good))
    yield "choose=0"
    yield "choose=5"
    yield "choose=4294967295"
    yield "choose=4"
    yield "# The audio source, and then the first entry of three that names the place."
    yield call(section(sequence=4, details_source=700, audio=65535, locations=[location(6, 59), location(7, 0), location(6, 37, 4), location(6, 37, 5)], **good))
    yield call(section(sequence=5, locations=[location(6, 37, 4)], **good))
    yield call(section(sequence=6, priority=0, **good))
    yield "# A test is remembered: the same number is then a repeat, whatever it says."
    yield call(section(sequence=6, **good))
    yield call(section(sequence=7, locations=[location(6, 0)], exceptions=[channel(1023, 1023), source(65535)], details_source=700, **good))
    yield "choose=1"
    yield call(section(sequence=8, priority=7, details_source=300, **good))
    yield call(section(sequence=9, priority=3, details_source=300, **good))
    yield call(section(sequence=10, priority=8, details_source=256, seconds=0, event_id=65535, alert=text(string("eng", (0, 4, b"\x10"), (0, 0, b"OK\x00\x7F")))))
    yield "tick=4294967295"
    yield "# An end past the clock's last reading never comes."
    yield call(section(sequence=11, details_source=300, **good))
    yield "tick=4294967295"
    yield call(section(sequence=12, alert=text(string("spa", (0, 0, b"Refugio"))), **good))
    yield "# Sections that are refused, from 10 to 16"
    yield "section="
    yield call(section()[:45])
    yield call(section() + b"\0")
    yield call(sections.full_size(4096) + b"\0")
    yield call(section(table=0xD7))
    yield call(sections.damaged(section(), 30))
    yield call(section(protocol=1))
    yield call(section(count=2))
    yield call(section(seconds=121))
    yield call(section(locations=[location(6, 37), location(6, 1000)], nature=b"\x05"))
    yield call(section(alert=b"\x01eng"))
    yield call(sections.full_size(4096))
    yield "# Digits may be small letters, and a carriage return may stand before the line feed."
    yield "section=" + section(sequence=13, **good).hex() + "\r"
    yield "tick=4294967295\r"
    yield "# Documents: two fragments in another order, with another descriptor between them"
    parts = [b"<a><AlertText>", b"</AlertText><AlertText></AlertText></a>"]
    first, second = [bytes([3, len(p) + 2, k + 1, len(p)]) + p for k, p in enumerate(parts)]
    yield doc(second + b"\x41\x01\xFF" + first, alert=d)
    yield doc(bytes([3, 4, 1, 2]) + b"<a", alert=d)
    yield "# and those that are refused: by 20 to 24, and by the section's own refusal"
    yield doc(first[:-1])
    yield doc(first + b"\x03")
    yield doc(first + bytes([3, 3, 2, 2, 0]))
    yield doc(bytes([3, 3, 0, 1, 0]))
    yield doc(b"")
    yield doc(b"\x41\x00")
    yield doc(first + first)
    yield doc(second)
    yield "document="
    yield doc(first, seconds=121)
    yield "document=" + sections.damaged(section(descriptors=first), 60).hex()
    yield "# A document changes nothing of the receiver."
    yield "choose=1"


def doc(descriptors, **changes):
    return "document=" + section(descriptors=descriptors, **changes).hex().upper()


SAMPLES = {"overlap": overlap, "cut-short": cut_short, "exception": exception, "paid": paid, "month": month}


def write(path, data):
    with open(os.path.join(HERE, path), "wb") as f:
        f.write(data)


class Gathered:
    def __init__(self):
        self.pieces = []

    def write(self, piece):
        self.pieces.append(piece)


def printed(data):
    out = Gathered()
    run(data, out)
    return b"".join(out.pieces)


def write_samples():
    for name, lines in SAMPLES.items():
        script = "".join(line + "\n" for line in lines()).encode()
        write("samples/%s.txt" % name, script)
        write("samples/%s.out" % name, printed(script))
    script = "\n".join(every_line()).encode()
    write("crates/rehearse/stdin", script)
    write("crates/rehearse/stdout", printed(script))


# Random scripts

class Dice:
    """A script that is made up call by call, with a receiver beside it so that clocks and names meet."""

    def __init__(self, rng):
        self.rng = rng
        self.sequence = rng.randrange(32)
        self.sent = []
        self.settings, self.services = {}, []

    def some(self, *chances):
        """One of the (weight, value) pairs."""
        return self.rng.choices([v for _, v in chances], [w for w, _ in chances])[0]

    def set_up(self):
        rng, out = self.rng, []
        if rng.random() < 0.8:
            out.append("set=" + self.some((3, "map"), (1, "bus")))
        if rng.random() < 0.9:
            for _ in range(self.some((6, rng.randint(1, 6)), (1, rng.randint(200, 256)), (0.3, 0), (0.1, 300))):
                marks = [m for m in ("controlled", "paid", "apart") if rng.random() < 0.35]
                rng.shuffle(marks)
                top = self.some((40, 7), (2, 1023), (0.1, 1100))
                out.append("service=" + ",".join(["%d-%d" % (rng.randint(0, top), rng.randint(0, 2)), "%d" % rng.randint(0, top)] + marks))
        if rng.random() < 0.5:
            out.append("start=%d" % self.some((8, 0), (3, rng.randint(0, 3)), (0.3, 300)))
        if rng.random() < 0.7:
            out.append("place=%d,%d,%d" % self.some((8, (6, 37, rng.randint(0, 9))), (2, (6, 59, 1)), (0.3, (0, 37, 1)), (0.3, (6, 1000, 1)), (0.2, (300, 70000, 10))))
        if rng.random() < 0.8:
            out.append("path=" + rng.choice(["in-band", "out-of-band"]))
        if rng.random() < 0.7:
            out.append("clock=%d" % self.some((3, 0), (3, rng.randrange(2 ** 32)), (2, 2 ** 32 - rng.randint(1, 300))))
        rng.shuffle(out)
        return out

    def place_entry(self):
        rng = self.rng
        entry = self.some((6, (6, 37)), (2, (6, 59)), (1, (6, 0)), (1, (0, rng.randrange(1000))), (1, (7, 37)), (1, (rng.randrange(100), rng.randrange(1000))))
        raw = bytearray(location(*entry, rng.choice([0, 0, rng.randint(0, 9)])))
        if rng.random() < 0.3:
            raw[1] &= 0xF3
        return bytes(raw)

    def exception_entry(self):
        rng = self.rng
        if rng.random() < 0.5:
            return channel(*self.pair())
        return source(self.source_id())

    def pair(self):
        return self.some((3, (self.rng.randint(0, 7), self.rng.randint(0, 2))), (2, (self.rng.randint(1, 16), 0)), (1, (0, 0)))

    def source_id(self):
        return self.some((6, self.rng.randint(0, 7)), (1, self.rng.randrange(65536)))

    def words(self):
        rng = self.rng
        shape = rng.random()
        if shape < 0.55:
            return english(rng.choice(["Take shelter now", "Fire & <smoke>", "Road closed", "", "a" * 200, "Grüße"]))
        if shape < 0.65:
            return rng.choice([b"", b"\0"])
        strings = []
        for _ in range(rng.randint(1, 3)):
            segments = []
            for _ in range(rng.randint(0, 4)):
                body = bytes(rng.randrange(256) for _ in range(self.some((5, rng.randint(0, 12)), (1, 255))))
                segments.append((self.some((12, 0), (1, 1)), self.some((9, rng.randint(0, 6)), (1, rng.randint(0, 255))), body))
            strings.append(string(self.some((4, "eng"), (1, "spa"), (1, "ENG")), *segments))
        return text(*strings)

    def descriptors(self):
        rng = self.rng
        if rng.random() < 0.5:
            return b""
        whole = b"".join(rng.choice([b"<a>", b"<AlertText></AlertText>", b"<Alert", b"Text></AlertText>", b"x" * rng.randint(0, 60), b"&amp;"]) for _ in range(rng.randint(1, 6)))
        cuts = sorted(rng.randrange(len(whole) + 1) for _ in range(rng.randint(0, 5)))
        pieces = [whole[a:b] for a, b in zip([0] + cuts, cuts + [len(whole)])]
        pieces = [p[:253] for p in pieces if p]
        parts = [bytes([3, len(p) + 2, k + 1, len(p)]) + p for k, p in enumerate(pieces)]
        if rng.random() < 0.25:
            parts.append(rng.choice(parts or [b""]))
        if rng.random() < 0.15:
            k = rng.randrange(256)
            parts.append(bytes([3, 3, k, rng.choice([1, 1, 2]), 65]))
        if rng.random() < 0.1 and parts:
            parts.pop(rng.randrange(len(parts)))
        for _ in range(rng.randint(0, 2)):
            n = rng.randrange(6)
            parts.append(bytes([rng.choice([0, 2, 4, 0x41, 255]), n]) + bytes(rng.randrange(256) for _ in range(n)))
        if rng.random() < 0.8:
            rng.shuffle(parts)
        area = b"".join(parts)
        if rng.random() < 0.12:
            area += rng.choice([b"\x03", b"\x03\x05\x01", b"\x41\x01"])
        return area[:1023]

    def shape(self):
        rng = self.rng
        self.sequence = self.some((7, (self.sequence + 1) % 32), (2, self.sequence), (1, rng.randrange(32)))
        return dict(
            sequence=self.sequence, event_id=self.some((3, rng.randint(1, 40)), (1, rng.randrange(65536))), seconds=self.some((5, rng.randint(1, 30)), (2, 0), (1, 120)),
            priority=self.some((1, 0), (9, rng.randrange(16)), (3, 15)), details=self.pair(), details_source=self.source_id(), audio=self.source_id(),
            alert=self.words(), nature=rng.choice([english("Storm"), b"", b"\0"]), locations=[self.place_entry() for _ in range(self.some((6, 1), (3, rng.randint(1, 5)), (1, 31)))],
            exceptions=[self.exception_entry() for _ in range(self.some((4, 0), (4, rng.randint(1, 4)), (1, rng.randint(0, 60))))],
            descriptors=self.descriptors(), event_code=rng.choice([b"TOR", b"RWT", b"", b"ABCDEFG"]), start=rng.randrange(2 ** 32), duration=rng.randrange(65536))

    def wrong(self, shape):
        rng = self.rng
        change = rng.choice([
            dict(table=rng.randrange(256)), dict(flags=rng.choice([0x30, 0xF0, 0x80, 0xB0])), dict(extension=rng.randint(0, 2)), dict(version=rng.choice([0xC0, 0x01])),
            dict(number=1), dict(last=1), dict(protocol=rng.randint(0, 3)), dict(seconds=rng.randint(118, 130)), dict(count=rng.choice([0, 1, 2, 200])),
            dict(locations=[]), dict(locations=[location(6, 37)] * 32), dict(locations=[location(rng.randint(98, 101), 37)]), dict(locations=[location(6, rng.randint(998, 1001))]),
            dict(locations=[location(6, 37), location(6, 37, rng.randint(8, 11))]), dict(area=rng.randint(0, 5)), dict(alert=b"\x01eng"),
            dict(alert=english("x") + b"\0"), dict(nature=b"\x02"), dict(nature=b"\x01eng\x01\x00\x00\x09a"), dict(reserved=0)])
        return section(**dict(shape, **change))

    def data(self):
        rng = self.rng
        if self.sent and rng.random() < 0.25:
            data = rng.choice(self.sent[-4:])
        else:
            shape = self.shape()
            data = self.wrong(shape) if rng.random() < 0.15 else section(**shape)
            self.sent.append(data)
        damage = rng.random()
        if damage < 0.05 and data:
            k = rng.randrange(8 * len(data))
            data = data[:k // 8] + bytes([data[k // 8] ^ 1 << k % 8]) + data[k // 8 + 1:]
        elif damage < 0.07:
            data = data[:rng.randrange(len(data) + 1)]
        elif damage < 0.08:
            data = data + bytes(rng.randrange(256) for _ in range(rng.randint(1, 5000)))
        elif damage < 0.09:
            data = bytes(rng.randrange(256) for _ in range(rng.randint(0, 100)))
        return data

    def tick(self, receiver):
        rng, now = self.rng, receiver.clock if receiver else 0
        end = receiver.alert["end"] if receiver and receiver.alert else None
        aimed = now if end is None else end + rng.choice([-1, -1, 0, 1])
        value = self.some((6, now + rng.randint(0, 12)), (5, aimed), (1, max(0, now - rng.randint(1, 5))), (0.02, rng.randrange(2 ** 32)))
        return min(max(value, 0), 2 ** 32 - 1)

    def odd(self):
        rng = self.rng
        return rng.choice(["", "# a comment", "begin", "clock=5", "service=1-1,1", "place=6,37,0", "tick=01", "tick=", "choose=4294967296", "choose=-1", "section=ABC",
                           "section=XY", "document=1", "Tick=5", "tick=5 ", "tick=5\r", "choose=0\r", "\r", "#\r", "tick==5", "section=", "document=", "start=1,",
                           "".join(chr(rng.randint(32, 126)) for _ in range(rng.randint(1, 30)))])

    def call(self, receiver):
        rng = self.rng
        kind = self.some((9, "section"), (8, "tick"), (3, "choose"), (3, "document"), (2, "odd"))
        if kind == "odd":
            return self.odd()
        if kind == "tick":
            return "tick=%d" % self.tick(receiver)
        if kind == "choose":
            count = len(receiver.services) if receiver else 4
            return "choose=%d" % self.some((12, rng.randrange(count)), (1, count), (1, rng.randrange(2 ** 32)))
        digits = self.data().hex()
        return kind + "=" + (digits.upper() if rng.random() < 0.8 else digits)


def many(count, seed):
    """A random script of so many calls and odd lines."""
    dice = Dice(random.Random(seed))
    for line in dice.set_up():
        yield line
        key, value = asked(line.encode()) or (None, None)
        if key == b"service":
            dice.services.append(value)
        elif key:
            dice.settings.setdefault(key, value)
    if dice.rng.random() < 0.7:
        yield "begin"
    receiver, _ = begin(dice.settings, dice.services)
    for _ in range(count):
        line = dice.call(receiver)
        yield line
        key, value = asked(line.rstrip("\r").encode()) or (None, None)
        if receiver and key in CALLS and key != b"document":
            called(receiver, key, value)


def odd(count, seed):
    """Random lines of any bytes, and lines that are nearly right."""
    rng = random.Random(seed)
    keys = list(SETTINGS) + list(CALLS) + [b"begin"]
    for _ in range(count):
        shape = rng.random()
        if shape < 0.3:
            yield bytes(rng.randrange(256) for _ in range(rng.randint(0, 60)))
        elif shape < 0.9:
            value = bytes(rng.choice(b"0123456789,-abcdefABCDEFinoutofbandpaidapartcontrolledmusb=# \r") for _ in range(rng.randint(0, 12)))
            yield rng.choice(keys) + rng.choice([b"=", b"=", b"=", b"", b" ", b"=="]) + value
        else:
            yield rng.choice([b"section=", b"document=", b"tick=", b"#", b"x"]) + rng.choice([b"0", b"A", b"f", b"00", b"0Z"]) * rng.randint(1, 20000) + rng.choice([b"", b"\r", b" "])


def compare(program, count):
    """Whether the program prints the same on random scripts, every tenth of odd lines."""
    for seed in range(count):
        lines = odd(200, seed) if seed % 10 == 9 else (line.encode() for line in many(200, seed))
        script = b"\n".join(lines) + b"\n" * (seed % 2)
        ran = subprocess.run([program], input=script, stdout=subprocess.PIPE)
        if ran.returncode or ran.stdout != printed(script):
            sys.exit("%s: something else on script %d" % (program, seed))
    print("the same on %d scripts" % count)


def main():
    out = sys.stdout.buffer
    what = sys.argv[1] if len(sys.argv) > 1 else ""
    if what == "run":
        run(sys.stdin.buffer.read(), out)
    elif what == "samples":
        write_samples()
    elif what == "many":
        out.writelines((line + "\n").encode() for line in many(int(sys.argv[2]), int(sys.argv[3])))
    elif what == "compare":
        compare(sys.argv[2], int(sys.argv[3]))
    elif what == "odd":
        out.writelines(line + b"\n" for line in odd(int(sys.argv[2]), int(sys.argv[3])))
    else:
        sys.exit(__doc__)


if __name__ == "__main__":
    main()
