//! The plain program that `.ci/bench/measure` compares `dlms` with. It answers the same frames, is written for speed, and has no proofs, no
//! store and few checks. The machine's rustc builds it; it is not part of the product.
use std::io::{BufRead, Read, Write};

const FLAG: u8 = 0x7e;

/// The check sequence of IEC 62056-46, 6.2.
struct Check([u16; 256]);

impl Check {
    fn new() -> Check {
        let mut table = [0u16; 256];
        for (octet, entry) in table.iter_mut().enumerate() {
            *entry = (0..8).fold(octet as u16, |value, _| if value & 1 == 1 { (value >> 1) ^ 0x8408 } else { value >> 1 });
        }
        Check(table)
    }

    fn of(&self, octets: &[u8]) -> u16 {
        !octets.iter().fold(0xffff, |sum: u16, &octet| (sum >> 8) ^ self.0[usize::from((sum as u8) ^ octet)])
    }

    fn matches(&self, octets: &[u8], sum: &[u8]) -> bool {
        self.of(octets).to_le_bytes() == *sum
    }
}

struct Frame<'a> {
    source: u8,
    control: u8,
    info: &'a [u8],
}

/// Reads a frame with addresses of one octet; the text has no flags.
fn frame<'a>(check: &Check, text: &'a [u8]) -> Option<Frame<'a>> {
    let length = usize::from(*text.first()? & 7) << 8 | usize::from(*text.get(1)?);
    if text.len() < 7 || text.len() != length || text[0] >> 4 != 0xa {
        return None;
    }
    let (body, sum) = text.split_at(length - 2);
    if !check.matches(body, sum) {
        return None;
    }
    let info = match body.len() {
        5 => &[][..],
        7.. if check.matches(&body[..5], &body[5..7]) => &body[7..],
        _ => return None,
    };
    Some(Frame { source: body[3] >> 1, control: body[4], info })
}

fn write_frame(check: &Check, out: &mut Vec<u8>, dest: u8, control: u8, info: &[u8]) {
    let length = if info.is_empty() { 7 } else { 9 + info.len() };
    let from = out.len() + 1;
    out.extend([FLAG, 0xa0 | (length >> 8) as u8, length as u8, dest << 1 | 1, 3, control]);
    let sum = check.of(&out[from..]);
    out.extend(sum.to_le_bytes());
    if !info.is_empty() {
        out.extend(info);
        let sum = check.of(&out[from..]);
        out.extend(sum.to_le_bytes());
    }
    out.push(FLAG);
}

/// Finds frames in a stream of octets; the buffer contains those that may still be part of a frame.
struct Deframer {
    buffer: Vec<u8>,
}

impl Deframer {
    /// Reads octets through the first closing flag of a frame. Returns their number, and the frame's range in the buffer, without its flags.
    fn feed(&mut self, check: &Check, octets: &[u8]) -> (usize, Option<std::ops::Range<usize>>) {
        for (at, &octet) in octets.iter().enumerate() {
            self.buffer.push(octet);
            if octet != FLAG {
                continue;
            }
            let end = self.buffer.len() - 1;
            for from in end.saturating_sub(2048)..end {
                if self.buffer[from] == FLAG && frame(check, &self.buffer[from + 1..end]).is_some() {
                    return (at + 1, Some(from + 1..end));
                }
            }
        }
        if self.buffer.len() > 8192 {
            self.buffer.drain(..self.buffer.len() - 2049);
        }
        (octets.len(), None)
    }

    fn start_after_frame(&mut self) {
        self.buffer.clear();
        self.buffer.push(FLAG);
    }
}

/// A meter's registers, its clock, and the public client's link and association.
#[derive(Default)]
struct Meter {
    registers: [u32; 3],
    second: u32,
    up: bool,
    associated: bool,
    sent: u8,
    taken: u8,
}

impl Meter {
    fn answer(&mut self, apdu: &[u8], out: &mut Vec<u8>) {
        out.extend([0xe6, 0xe7, 0]);
        match apdu {
            [0x60, ..] => {
                self.associated = true;
                out.extend([0x61, 0x29, 0xa1, 9, 6, 7, 0x60, 0x85, 0x74, 5, 8, 1, 1, 0xa2, 3, 2, 1, 0, 0xa3, 5, 0xa1, 3, 2, 1, 0]);
                out.extend([0xbe, 0x10, 4, 0x0e, 8, 0, 6, 0x5f, 0x1f, 4, 0, 0, 0x10, 0x1d, 4, 0, 0, 7]);
            }
            _ if !self.associated => out.extend([0xd8, 1, 1]),
            [0xc0, 1, invoke, 0, 3, 1, 0, at @ 1..=3, 8, 0, 255, 2, 0] => {
                out.extend([0xc4, 1, *invoke, 0, 6]);
                out.extend(self.registers[usize::from(at - 1)].to_be_bytes());
            }
            [0xc0, 1, invoke, ..] => out.extend([0xc4, 1, *invoke, 1, 4]),
            _ => out.extend([0xd8, 2, 2]),
        }
    }

    fn on(&mut self, check: &Check, frame: &Frame<'_>, info: &mut Vec<u8>, out: &mut Vec<u8>) {
        match frame.control {
            0x93 => {
                *self = Meter { registers: self.registers, second: self.second, up: true, ..Meter::default() };
                let window = [0x81, 0x80, 0x12, 5, 1, 0x80, 6, 1, 0x80, 7, 4, 0, 0, 0, 1, 8, 4, 0, 0, 0, 1];
                write_frame(check, out, frame.source, 0x73, &window);
            }
            control if self.up && control & 1 == 0 && control >> 1 & 7 == self.taken && control >> 5 == self.sent => {
                info.clear();
                self.answer(frame.info.strip_prefix(&[0xe6, 0xe6, 0]).unwrap_or(&[]), info);
                self.taken = (self.taken + 1) & 7;
                write_frame(check, out, frame.source, self.taken << 5 | 0x10 | self.sent << 1, info);
                self.sent = (self.sent + 1) & 7;
            }
            _ => {}
        }
    }
}

fn digit(digit: u8) -> u8 {
    match digit {
        b'0'..=b'9' => digit - b'0',
        b'a'..=b'f' => digit - b'a' + 10,
        b'A'..=b'F' => digit - b'A' + 10,
        _ => 255,
    }
}

fn octets_of(text: &[u8], octets: &mut Vec<u8>) {
    octets.clear();
    let mut digits = text.iter().map(|&each| digit(each)).filter(|&each| each < 16);
    while let (Some(high), Some(low)) = (digits.next(), digits.next()) {
        octets.push(high << 4 | low);
    }
}

fn put_octets(octets: &[u8], out: &mut Vec<u8>) {
    for octet in octets {
        out.extend([b"0123456789abcdef"[usize::from(octet >> 4)], b"0123456789abcdef"[usize::from(octet & 15)]]);
    }
}

fn numbers(line: &[u8]) -> impl Iterator<Item = u32> + '_ {
    line[1..].split(|&each| each == b' ').filter(|word| !word.is_empty()).map(|word| word.iter().fold(0, |number: u32, each| number.wrapping_mul(10).wrapping_add(u32::from(each - b'0'))))
}

/// Runs the lines of a transcript on a meter.
fn replay(input: &mut impl BufRead, output: &mut impl Write) -> std::io::Result<()> {
    let (check, mut meter, mut deframer) = (Check::new(), Meter::default(), Deframer { buffer: Vec::new() });
    let (mut line, mut octets, mut info, mut reply, mut out) = (Vec::new(), Vec::new(), Vec::new(), Vec::new(), Vec::new());
    while input.read_until(b'\n', &mut line)? > 0 {
        let text = line.strip_suffix(b"\n").unwrap_or(&line);
        match text.first() {
            Some(b'>') => {
                octets_of(text, &mut octets);
                let mut rest = &octets[..];
                while !rest.is_empty() {
                    let (taken, found) = deframer.feed(&check, rest);
                    rest = &rest[taken..];
                    if let Some(place) = found {
                        reply.clear();
                        if let Some(frame) = frame(&check, &deframer.buffer[place]) {
                            meter.on(&check, &frame, &mut info, &mut reply);
                        }
                        deframer.start_after_frame();
                        if !reply.is_empty() {
                            out.clear();
                            out.extend(b"< ");
                            put_octets(&reply, &mut out);
                            out.push(b'\n');
                            output.write_all(&out)?;
                        }
                    }
                }
            }
            Some(b'P') => {
                let mut words = numbers(text);
                if let (Some(channel @ 0..=2), Some(count)) = (words.next(), words.next()) {
                    let register = &mut meter.registers[channel as usize];
                    *register = register.wrapping_add(count);
                }
            }
            Some(b'M') => meter.second = numbers(text).next().unwrap_or(0).max(meter.second),
            _ => {}
        }
        line.clear();
    }
    output.flush()
}

/// Prints a line for each frame in lines of octets.
fn frames(input: &mut impl BufRead, output: &mut impl Write) -> std::io::Result<()> {
    let (check, mut deframer) = (Check::new(), Deframer { buffer: Vec::new() });
    let (mut line, mut octets) = (Vec::new(), Vec::new());
    while input.read_until(b'\n', &mut line)? > 0 {
        octets_of(&line[1..], &mut octets);
        let mut rest = &octets[..];
        while !rest.is_empty() {
            let (taken, found) = deframer.feed(&check, rest);
            rest = &rest[taken..];
            if let Some(place) = found {
                if let Some(frame) = frame(&check, &deframer.buffer[place]) {
                    writeln!(output, "{} {:02x} {:02x?}", frame.source, frame.control, frame.info)?;
                }
                deframer.start_after_frame();
            }
        }
        line.clear();
    }
    output.flush()
}

/// Sends 32 octets and gets this number of octets back, `count` times, over TCP on this machine.
fn turns(count: usize, octets: usize) -> std::io::Result<()> {
    let listener = std::net::TcpListener::bind("127.0.0.1:0")?;
    let mut head = std::net::TcpStream::connect(listener.local_addr()?)?;
    let (mut tail, _) = listener.accept()?;
    head.set_nodelay(true)?;
    tail.set_nodelay(true)?;
    let mut piece = vec![0; octets];
    for _turn in 0..count {
        head.write_all(&[0; 32])?;
        tail.read_exact(&mut piece[..32])?;
        tail.write_all(&piece)?;
        head.read_exact(&mut piece)?;
    }
    Ok(())
}

/// Reads a file, and prints the check sequence of each of its slots of 544 octets.
fn slots(path: &str) -> std::io::Result<()> {
    let octets = std::fs::read(path)?;
    let check = Check::new();
    for slot in octets.chunks(544) {
        println!("{}", check.of(slot));
    }
    Ok(())
}

fn main() -> std::io::Result<()> {
    let arguments: Vec<String> = std::env::args().skip(1).collect();
    let input = &mut std::io::BufReader::with_capacity(1 << 16, std::io::stdin().lock());
    let output = &mut std::io::BufWriter::with_capacity(1 << 16, std::io::stdout().lock());
    match arguments.iter().map(String::as_str).collect::<Vec<_>>()[..] {
        ["replay"] => replay(input, output),
        ["frames"] => frames(input, output),
        ["turns", count, octets] => turns(count.parse().unwrap_or(0), octets.parse().unwrap_or(0)),
        ["slots", path] => slots(path),
        _ => std::process::exit(2),
    }
}
