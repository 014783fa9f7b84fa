#!/usr/bin/env python3
"""Builds alert sections and says what is in them, independently of the crates.

  tools/sections.py input       the sample lines, for sectiondump's standard input
  tools/sections.py output      what sectiondump must print for them
  tools/sections.py many N      N lines of well-formed sections, for timing
  tools/sections.py print       reads lines as sectiondump does, and prints the same

Everything here follows docs/SECTION.md and docs/TEXT.md, without the crates' code."""
import sys


def shifted(register):
    """The register after eight more bits of 0."""
    for _ in range(8):
        top = register >> 31
        register = (register << 1) & 0xFFFFFFFF
        if top:
            register ^= 0x04C11DB7
    return register


SHIFTED = [shifted(byte << 24) for byte in range(256)]


def check_register(data):
    register = 0xFFFFFFFF
    for byte in data:
        register = (register << 8 & 0xFFFFFFFF) ^ SHIFTED[register >> 24 ^ byte]
    return register


def string(language, *segments):
    out = language.encode() + bytes([len(segments)])
    for compression, mode, body in segments:
        out += bytes([compression, mode, len(body)]) + body
    return out


def text(*strings):
    return bytes([len(strings)]) + b"".join(strings)


def english(words):
    return text(string("eng", (0, 0, words.encode("latin-1"))))


def location(state, county, part=0):
    return bytes([state, part << 4 | 0x0C | county >> 8, county & 255])


def channel(major, minor):
    return bytes([0xFF, 0xFC | major >> 8, major & 255, 0xFC | minor >> 8, minor & 255])


def source(number):
    return bytes([0x7F, 0xFF, 0xFF, number >> 8, number & 255])


BASE = dict(
    table=0xD8, flags=0xB0, extension=0, version=0xC1, number=0, last=0, protocol=0, event_id=16, originator=b"WXR",
    event_code=b"TOR", nature=english("Tornado Warning"), seconds=60, start=0, duration=240, priority=15, details_source=0,
    details=(3, 1), audio=0, alert=english("Take shelter now"), locations=[location(6, 37)], exceptions=[], descriptors=b"",
    sequence=7)


def section(damage=None, **changes):
    f = dict(BASE, **changes)
    body = f["event_id"].to_bytes(2, "big") + f["originator"]
    body += bytes([len(f["event_code"])]) + f["event_code"] + bytes([len(f["nature"])]) + f["nature"]
    body += bytes([f["seconds"]]) + f["start"].to_bytes(4, "big") + f["duration"].to_bytes(2, "big")
    body += (0xFFF0 | f["priority"]).to_bytes(2, "big") + f["details_source"].to_bytes(2, "big")
    body += (0xFC00 | f["details"][0]).to_bytes(2, "big") + (0xFC00 | f["details"][1]).to_bytes(2, "big")
    body += f["audio"].to_bytes(2, "big") + len(f["alert"]).to_bytes(2, "big") + f["alert"]
    body += bytes([f.get("count", len(f["locations"]))]) + b"".join(f["locations"])
    body += bytes([len(f["exceptions"])]) + b"".join(f["exceptions"])
    body += (0xFC00 | f.get("area", len(f["descriptors"]))).to_bytes(2, "big") + f["descriptors"]
    length = 6 + len(body) + 4
    head = bytes([f["table"], f["flags"] | length >> 8, length & 255]) + f["extension"].to_bytes(2, "big")
    head += bytes([f["version"] & 0xC1 | f["sequence"] << 1, f["number"], f["last"], f["protocol"]])
    whole = head + body
    if f.get("reserved") == 0:
        whole = bytearray(whole)
        whole[1] &= 0xCF
        whole[5] &= 0x3F
        whole = bytes(whole)
    return whole + check_register(whole).to_bytes(4, "big")


def damaged(data, place):
    return data[:place] + bytes([data[place] ^ 1]) + data[place + 1:]


def full_size(size):
    """A well-formed section of so many bytes, filled up by descriptors and exceptions."""
    plain = len(section())
    rest = size - plain
    entries = min(255, rest // 5)
    rest -= 5 * entries
    area = min(1023, rest)
    rest -= area
    words = english("Take shelter now")
    if rest:
        words = text(string("eng", (0, 0, b"Take shelter now")), *[
            string("spa", (0, 0, b"x" * min(255, max(0, n)))) for n in fillers(rest)])
    return section(exceptions=[source(k + 1) for k in range(entries)], descriptors=bytes(area), alert=words)


def fillers(rest):
    out = []
    while rest > 0:
        piece = min(262, rest)
        if 0 < rest - piece < 7:
            piece = rest - 7
        out.append(piece - 7)
        rest -= piece
    return out


def samples():
    good = section()
    yield "# one alert of every shape"
    yield good
    yield section(
        sequence=31, event_id=65535, originator=b"EAS", event_code=b"RWT", nature=b"", seconds=0, start=1500000000,
        duration=65535, priority=0, details_source=300, details=(1023, 1023), audio=256, alert=b"",
        locations=[location(0, 0), location(6, 0), location(6, 37, 5), location(99, 999, 9)],
        exceptions=[channel(12, 1), source(256), channel(0, 0), source(0), channel(1023, 1023), source(65535)],
        descriptors=bytes([3, 4, 1, 2, 0x3C, 0x61]))
    yield ""
    yield "# reserved bits are disregarded, an event code may be empty, and codes may be no text"
    yield section(event_code=b"", reserved=0, originator=b"\x00AB")
    yield section(event_code=b"A B", originator=b"~!0", nature=b"\x00", alert=b"\x00")
    yield "# texts: modes, controls, no English, an unreadable string, two segments, a long one"
    yield section(alert=text(string("eng", (0, 4, b"\x10"), (0, 0, b"OK\x00\x1F\x7F\x80\x9F\xA0\xFF"), (0, 6, b"\xFF"))))
    yield section(alert=text(string("spa", (0, 0, b"Refugio")), string("eng", (0, 0, b"Shelter")), string("eng", (0, 0, b"Second"))))
    yield section(alert=text(string("spa", (0, 0, b"Refugio"))))
    yield section(alert=text(string("eng", (0, 0, b"seen"), (0, 7, b"not")), string("eng", (0, 0, b"Second"))))
    yield section(alert=text(string("eng", (1, 0, b"packed"))))
    yield section(alert=text(string("eng")), nature=text())
    yield section(alert=text(string("eng", *[(0, 1, b"\x11" * 255)] * 2, (0, 0, b"a"), (0, 1, b"\x22" * 3), (0, 0, b"zzz"))))
    yield full_size(4096)
    yield "# wrong lengths"
    yield b""
    yield b"\xD8"
    yield section()[:45]
    yield good + b"\x00"
    yield good[:-1]
    yield full_size(4096) + b"\x00"
    yield "# fixed values of the head"
    for change in (dict(table=0xD7), dict(flags=0x30), dict(flags=0xF0), dict(extension=1), dict(version=0xC0), dict(number=1), dict(last=1)):
        yield section(**change)
    yield "# the check word, before anything after it"
    yield damaged(good, 30)
    yield damaged(section(seconds=121), 40)
    yield damaged(section(protocol=1), 50)
    yield "# the protocol version"
    yield section(protocol=1)
    yield section(protocol=1, seconds=121)
    yield "# lengths that do not add up"
    yield section(area=1)
    yield section(area=1, descriptors=b"")
    yield section(count=2)
    yield section(count=200, seconds=121)
    yield "# ranges"
    yield section(seconds=120)
    yield section(seconds=121)
    yield section(locations=[])
    yield section(locations=[location(6, 37)] * 31)
    yield section(locations=[location(6, 37)] * 32)
    yield section(locations=[location(100, 37)])
    yield section(locations=[location(6, 37, 10)])
    yield section(locations=[location(6, 37), location(6, 1000)], nature=b"\x05")
    yield "# text fields that break their structure"
    yield section(nature=english("Tornado Warning") + b"\x00")
    yield section(alert=b"\x01eng")
    yield section(alert=b"\x01eng\x01\x00\x00\x05OK")
    yield section(alert=b"\x00\x00")
    yield "# what is no section line"
    for odd in ("section=D", "section=D8 ", "section=G0", "sections=D8", "tick=5", " ", "Section=D8", "section"):
        yield ("raw", odd)
    yield ("raw", "section=" + good.hex())
    yield ("raw", "section=" + good.hex().upper() + "\r")
    yield ("raw", "\r")


def lines():
    for item in samples():
        if isinstance(item, tuple):
            yield item[1]
        elif isinstance(item, str):
            yield item
        else:
            yield "section=" + item.hex().upper()


class Cursor:
    def __init__(self, data):
        self.data, self.at, self.over = data, 0, False

    def take(self, n):
        piece = self.data[self.at:self.at + n]
        if len(piece) < n:
            self.over = True
            piece = piece + bytes(n - len(piece))
        self.at += n
        return piece

    def number(self, n):
        return int.from_bytes(self.take(n), "big")


def parse_text(field):
    """The strings of a field, or None where it breaks its structure."""
    if not field:
        return []
    c = Cursor(field)
    strings = []
    for _ in range(c.number(1)):
        language = c.take(3)
        segments = []
        for _ in range(c.number(1)):
            compression, mode = c.number(1), c.number(1)
            segments.append((compression, mode, c.take(c.number(1))))
        strings.append((language, segments))
        if c.over:
            return None
    return strings if c.at == len(field) and not c.over else None


def words_of(field):
    for language, segments in parse_text(field):
        if language == b"eng":
            out = b""
            for compression, mode, body in segments:
                if compression != 0 or mode > 6:
                    return b""
            for _, mode, body in segments:
                for byte in body:
                    point = 256 * mode + byte
                    if point < 0x20 or 0x7F <= point <= 0x9F:
                        point = 0x20
                    piece = chr(point).encode()
                    if len(out) + len(piece) > 1024:
                        return out
                    out += piece
            return out
    return b""


CAUSES = {10: "wrong length", 11: "fixed value of the head differs", 12: "wrong check word", 13: "unknown protocol version",
          14: "stated lengths do not add up", 15: "number out of range", 16: "broken text field"}


def visible(code):
    return code if all(0x21 <= b <= 0x7E for b in code) else b"0x" + code.hex().upper().encode()


def read(data):
    """A refusal's number, or what is in the section by name."""
    if not 46 <= len(data) <= 4096 or (data[1] & 15) * 256 + data[2] + 3 != len(data):
        return 10
    if data[0] != 0xD8 or data[1] >> 6 != 2 or data[3] or data[4] or not data[5] & 1 or data[6] or data[7]:
        return 11
    if check_register(data):
        return 12
    if data[8]:
        return 13
    c = Cursor(data)
    c.take(9)
    f = dict(sequence=data[5] >> 1 & 31, event_id=c.number(2), originator=c.take(3))
    size = c.number(1)
    f.update(code_at=c.at, event_code=c.take(size))
    nature = c.take(c.number(1))
    f.update(seconds=c.number(1), start=c.number(4), duration=c.number(2), priority=c.number(2) & 15, details_source=c.number(2))
    f.update(details=(c.number(2) & 1023, c.number(2) & 1023), audio=c.number(2))
    alert = c.take(c.number(2))
    places = [c.take(3) for _ in range(c.number(1))]
    exceptions = [c.take(5) for _ in range(c.number(1))]
    area = c.number(2) & 1023
    f.update(area_at=c.at, descriptors=c.take(area))
    c.take(4)
    if c.over or c.at != len(data):
        return 14
    f["locations"] = [(p[0], (p[1] & 3) * 256 + p[2], p[1] >> 4) for p in places]
    if f["seconds"] > 120 or not 1 <= len(places) <= 31 or any(s > 99 or k > 999 or p > 9 for s, k, p in f["locations"]):
        return 15
    if parse_text(nature) is None or parse_text(alert) is None:
        return 16
    f.update(nature=words_of(nature), text=words_of(alert), exceptions=[
        ("channel", ((e[1] & 3) * 256 + e[2], (e[3] & 3) * 256 + e[4])) if e[0] & 0x80 else ("source", e[3] * 256 + e[4]) for e in exceptions])
    return f


def described(f):
    """The lines of what is in a section."""
    out = [b"sequence=%d" % f["sequence"], b"event_id=%d" % f["event_id"], b"originator=" + visible(f["originator"])]
    out += [b"event_code=" + visible(f["event_code"]) + b" at=%d" % f["code_at"], b"nature=" + f["nature"], b"seconds=%d" % f["seconds"]]
    out += [b"start=%d" % f["start"], b"duration=%d" % f["duration"], b"priority=%d" % f["priority"]]
    out += [b"details_source=%d" % f["details_source"], b"details_channel=%d-%d" % f["details"], b"audio_source=%d" % f["audio"]]
    out += [b"text=" + f["text"]] + [b"location=%d-%d-%d" % n for n in f["locations"]]
    for kind, name in f["exceptions"]:
        out.append(b"exception=channel:%d-%d" % name if kind == "channel" else b"exception=source:%d" % name)
    return out + [b"descriptors=%d at=%d" % (len(f["descriptors"]), f["area_at"])]


def show(source_lines, out):
    count = 0
    for number, line in enumerate(source_lines, 1):
        if line.endswith(b"\r"):
            line = line[:-1]
        if not line or line.startswith(b"#"):
            continue
        digits = line[8:]
        if not line.startswith(b"section=") or len(digits) % 2 or any(d not in b"0123456789abcdefABCDEF" for d in digits):
            out.write(b"call=none line=%d\n" % number)
            continue
        data = bytes.fromhex(digits.decode())
        count += 1
        found = read(data)
        if isinstance(found, int):
            out.write(b"section=%d bytes=%d refused=%d %s\n" % (count, len(data), found, CAUSES[found].encode()))
        else:
            out.write(b"section=%d bytes=%d taken\n" % (count, len(data)))
            out.write(b"".join(b"  " + f + b"\n" for f in described(found)))


def many(n):
    shapes = [section(sequence=k, seconds=k * 3, event_id=k) for k in range(32)]
    for k in range(n):
        yield shapes[k % 32].hex().upper()


def main():
    out = sys.stdout.buffer
    what = sys.argv[1] if len(sys.argv) > 1 else ""
    if what == "input":
        out.write("\n".join(lines()).encode())
    elif what == "output":
        show([l.encode() for l in lines()], out)
    elif what == "many":
        for digits in many(int(sys.argv[2])):
            out.write(b"section=" + digits.encode() + b"\n")
    elif what == "print":
        data = sys.stdin.buffer.read().split(b"\n")
        show(data[:-1] if data[-1] == b"" else data, out)
    else:
        sys.exit(__doc__)


if __name__ == "__main__":
    main()
