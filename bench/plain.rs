// What sectiondump does for well-formed sections, as a plain Rust program: read a line, decode it,
// test length and check word, and print every field.
use std::io::{self, BufRead, Write};

fn table() -> [u32; 256] {
    let mut t = [0u32; 256];
    for k in 0..256u32 {
        let mut r = k << 24;
        for _ in 0..8 {
            r = if r & 0x8000_0000 != 0 { r << 1 ^ 0x04C1_1DB7 } else { r << 1 };
        }
        t[k as usize] = r;
    }
    t
}

fn nibble(d: u8) -> Option<u8> {
    match d {
        b'0'..=b'9' => Some(d - b'0'),
        b'a'..=b'f' => Some(d - b'a' + 10),
        b'A'..=b'F' => Some(d - b'A' + 10),
        _ => None,
    }
}

fn decode(text: &str) -> Option<Vec<u8>> {
    let digits = text.as_bytes();
    if digits.len() % 2 != 0 {
        return None;
    }
    digits.chunks(2).map(|p| Some(nibble(p[0])? * 16 + nibble(p[1])?)).collect()
}

fn word(b: &[u8], at: usize) -> u16 {
    u16::from_be_bytes([b[at], b[at + 1]])
}

fn english(field: &[u8]) -> String {
    let mut out = String::new();
    if field.len() < 5 || &field[1..4] != b"eng" {
        return out;
    }
    let mut at = 5;
    for _ in 0..field[4] {
        let (mode, n) = (u32::from(field[at + 1]), field[at + 2] as usize);
        for b in &field[at + 3..at + 3 + n] {
            let c = 256 * mode + u32::from(*b);
            out.push(if c < 0x20 || (0x7F..=0x9F).contains(&c) { ' ' } else { char::from_u32(c).unwrap() });
        }
        at += 3 + n;
    }
    out
}

fn dump(out: &mut impl Write, number: usize, b: &[u8], t: &[u32; 256]) -> io::Result<()> {
    let crc = b.iter().fold(0xFFFF_FFFFu32, |r, x| r << 8 ^ t[(r >> 24 ^ u32::from(*x)) as usize]);
    if b.len() < 46 || crc != 0 {
        return writeln!(out, "section={} bytes={} refused", number, b.len());
    }
    let nature = 15 + b[14] as usize;
    let times = nature + 1 + b[nature] as usize;
    let text = times + 19;
    let places = text + word(b, times + 17) as usize;
    let exceptions = places + 1 + 3 * b[places] as usize;
    let area = exceptions + 1 + 5 * b[exceptions] as usize;
    writeln!(out, "section={} bytes={} taken", number, b.len())?;
    writeln!(out, "  sequence={}", b[5] / 2 % 32)?;
    writeln!(out, "  event_id={}", word(b, 9))?;
    writeln!(out, "  originator={}", String::from_utf8_lossy(&b[11..14]))?;
    writeln!(out, "  event_code={} at=15", String::from_utf8_lossy(&b[15..nature]))?;
    writeln!(out, "  nature={}", english(&b[nature + 1..times]))?;
    writeln!(out, "  seconds={}", b[times])?;
    writeln!(out, "  start={}", u32::from_be_bytes([b[times + 1], b[times + 2], b[times + 3], b[times + 4]]))?;
    writeln!(out, "  duration={}", word(b, times + 5))?;
    writeln!(out, "  priority={}", word(b, times + 7) % 16)?;
    writeln!(out, "  details_source={}", word(b, times + 9))?;
    writeln!(out, "  details_channel={}-{}", word(b, times + 11) % 1024, word(b, times + 13) % 1024)?;
    writeln!(out, "  audio_source={}", word(b, times + 15))?;
    writeln!(out, "  text={}", english(&b[text..places]))?;
    for e in b[places + 1..exceptions].chunks(3) {
        writeln!(out, "  location={}-{}-{}", e[0], word(e, 1) % 1024, e[1] / 16)?;
    }
    for e in b[exceptions + 1..area].chunks(5) {
        if e[0] >= 128 {
            writeln!(out, "  exception=channel:{}-{}", word(e, 1) % 1024, word(e, 3) % 1024)?;
        } else {
            writeln!(out, "  exception=source:{}", word(e, 3))?;
        }
    }
    writeln!(out, "  descriptors={} at={}", word(b, area) % 1024, area + 2)
}

fn main() -> io::Result<()> {
    let t = table();
    let mut out = io::BufWriter::new(io::stdout().lock());
    let mut number = 0;
    for line in io::stdin().lock().lines() {
        let line = line?;
        match line.strip_prefix("section=").and_then(decode) {
            Some(bytes) => {
                number += 1;
                dump(&mut out, number, &bytes, &t)?;
            }
            None => writeln!(out, "call=none")?,
        }
    }
    out.flush()
}
