//! The walk over bodies and the reading of messages in plain Rust, to compare the proved ones with.
//!
//! With no words each input is looked at once, and nothing is printed. With a word each is measured, and gets a line
//! `NAME NANOSECONDS BYTES SUM`, as the program `wire_benchmark` prints it of the same inputs.

use std::process::ExitCode;
use std::str;
use std::time::{Duration, Instant};

// ---- signatures

#[derive(Clone, Copy, Debug, PartialEq, Eq)]
enum BadSignature {
    TooLong,
    Depth,
    Form,
}

const DEEPEST: u8 = 32;

/// Complete types, one after the other.
#[derive(Clone, Copy, Debug, PartialEq, Eq)]
struct Signature<'a>(&'a [u8]);

/// Reads complete types from the front.
struct TypeParser<'a> {
    rest: &'a [u8],
    too_deep: bool,
}

impl TypeParser<'_> {
    fn next(&mut self) -> Result<u8, BadSignature> {
        let (code, rest) = self.rest.split_first().ok_or(BadSignature::Form)?;
        self.rest = rest;
        Ok(*code)
    }

    fn one(&mut self, arrays: u8, structs: u8) -> Result<(), BadSignature> {
        match self.next()? {
            b'y' | b'b' | b'n' | b'q' | b'i' | b'u' | b'x' | b't' | b'd' | b's' | b'o' | b'g' | b'h' | b'v' => Ok(()),
            b'a' => {
                self.too_deep |= arrays >= DEEPEST;
                let arrays = arrays.saturating_add(1);
                if self.rest.first() == Some(&b'{') {
                    self.rest = &self.rest[1..];
                    self.entry(arrays, structs)
                } else {
                    self.one(arrays, structs)
                }
            }
            b'(' => {
                self.too_deep |= structs >= DEEPEST;
                let structs = structs.saturating_add(1);
                self.one(arrays, structs)?;
                while self.rest.first() != Some(&b')') {
                    self.one(arrays, structs)?;
                }
                self.rest = &self.rest[1..];
                Ok(())
            }
            _ => Err(BadSignature::Form),
        }
    }

    fn entry(&mut self, arrays: u8, structs: u8) -> Result<(), BadSignature> {
        match self.next()? {
            b'y' | b'b' | b'n' | b'q' | b'i' | b'u' | b'x' | b't' | b'd' | b's' | b'o' | b'g' | b'h' => (),
            _ => return Err(BadSignature::Form),
        }
        self.one(arrays, structs)?;
        match self.next()? {
            b'}' => Ok(()),
            _ => Err(BadSignature::Form),
        }
    }
}

impl<'a> Signature<'a> {
    fn read(bytes: &'a [u8]) -> Result<Signature<'a>, BadSignature> {
        if bytes.len() > 255 {
            return Err(BadSignature::TooLong);
        }
        let mut parser = TypeParser { rest: bytes, too_deep: false };
        while !parser.rest.is_empty() {
            parser.one(0, 0)?;
        }
        if parser.too_deep {
            return Err(BadSignature::Depth);
        }
        Ok(Signature(bytes))
    }
}

/// What follows the complete type in front.
fn behind_type(types: &[u8]) -> &[u8] {
    let mut brackets = 0usize;
    for (index, code) in types.iter().enumerate() {
        match code {
            b'(' | b'{' => brackets += 1,
            b')' | b'}' => brackets = brackets.saturating_sub(1),
            _ => (),
        }
        if *code != b'a' && brackets == 0 {
            return &types[index + 1..];
        }
    }
    &[]
}

// ---- names

/// Whether the text is two elements or more, joined by dots.
fn is_dotted(text: &[u8], dash: bool, digit_first: bool) -> bool {
    let mut begins = true;
    let mut dots = 0;
    for byte in text {
        match byte {
            b'A'..=b'Z' | b'a'..=b'z' | b'_' => begins = false,
            b'0'..=b'9' if !begins || digit_first => begins = false,
            b'-' if dash => begins = false,
            b'.' if !begins => {
                begins = true;
                dots += 1;
            }
            _ => return false,
        }
    }
    !begins && dots > 0
}

fn is_interface(text: &[u8]) -> bool {
    text.len() <= 255 && is_dotted(text, false, false)
}

fn is_bus_name(text: &[u8]) -> bool {
    text.len() <= 255
        && match text {
            [b':', elements @ ..] => is_dotted(elements, true, true),
            _ => is_dotted(text, true, false),
        }
}

fn is_member(text: &[u8]) -> bool {
    match text {
        [first, others @ ..] => {
            text.len() <= 255
                && (first.is_ascii_alphabetic() || *first == b'_')
                && others.iter().all(|byte| byte.is_ascii_alphanumeric() || *byte == b'_')
        }
        [] => false,
    }
}

fn is_path(text: &[u8]) -> bool {
    if text == b"/" {
        return true;
    }
    let elements = match text {
        [b'/', elements @ ..] => elements,
        _ => return false,
    };
    let mut begins = true;
    for byte in elements {
        match byte {
            b'A'..=b'Z' | b'a'..=b'z' | b'0'..=b'9' | b'_' => begins = false,
            b'/' if !begins => begins = true,
            _ => return false,
        }
    }
    !begins
}

// ---- values

#[derive(Clone, Copy, Debug, PartialEq, Eq)]
enum Order {
    Little,
    Big,
}

/// Where the last valid value ended.
#[derive(Clone, Copy, Debug, PartialEq, Eq)]
struct BadValue {
    at: usize,
}

const ARRAY_LIMIT: u32 = 1 << 26;

const CONTAINERS: usize = 65;

/// Whether the bytes are UTF-8 without NUL. ASCII is looked at many bytes at a time.
fn is_text(text: &[u8]) -> bool {
    let is_ascii = text.iter().fold(true, |is_good, byte| is_good & (*byte > 0) & (*byte < 128));
    is_ascii || !text.contains(&0) && str::from_utf8(text).is_ok()
}

/// A place in a message, from which values are read.
struct Reader<'a> {
    order: Order,
    bytes: &'a [u8],
    place: usize,
}

impl<'a> Reader<'a> {
    fn take(&mut self, len: usize) -> Option<&'a [u8]> {
        let end = self.place.checked_add(len)?;
        let taken = self.bytes.get(self.place..end)?;
        self.place = end;
        Some(taken)
    }

    /// Passes over the zeros up to a multiple of a power of two.
    fn align(&mut self, alignment: usize) -> Option<()> {
        let zeros = self.take(self.place.wrapping_neg() & (alignment - 1))?;
        zeros.iter().all(|byte| *byte == 0).then_some(())
    }

    fn byte(&mut self) -> Option<u8> {
        let byte = *self.bytes.get(self.place)?;
        self.place += 1;
        Some(byte)
    }

    fn number(&mut self) -> Option<u32> {
        self.align(4)?;
        let cells = self.take(4)?.try_into().ok()?;
        Some(match self.order {
            Order::Little => u32::from_le_bytes(cells),
            Order::Big => u32::from_be_bytes(cells),
        })
    }

    fn ended_by_nul(&mut self, len: usize) -> Option<&'a [u8]> {
        let text = self.take(len)?;
        (self.byte()? == 0).then_some(text)
    }

    fn text(&mut self) -> Option<&'a [u8]> {
        let len = self.number()?;
        self.ended_by_nul(len as usize)
    }

    fn signature(&mut self) -> Option<Signature<'a>> {
        let len = self.byte()?;
        let types = self.ended_by_nul(len as usize)?;
        Signature::read(types).ok()
    }

    fn fixed(&mut self, width: usize) -> Option<()> {
        self.align(width)?;
        self.take(width)?;
        Some(())
    }

    /// Passes over a value of the type in front, and returns the types that follow.
    fn value<'t>(&mut self, containers: usize, types: &'t [u8]) -> Option<&'t [u8]> {
        let containers = containers.checked_sub(1)?;
        let (code, others) = types.split_first()?;
        match code {
            b'y' => self.fixed(1)?,
            b'n' | b'q' => self.fixed(2)?,
            b'i' | b'u' | b'h' => self.fixed(4)?,
            b'x' | b't' | b'd' => self.fixed(8)?,
            b'b' => {
                if self.number()? > 1 {
                    return None;
                }
            }
            b's' => {
                if !is_text(self.text()?) {
                    return None;
                }
            }
            b'o' => {
                if !is_path(self.text()?) {
                    return None;
                }
            }
            b'g' => {
                self.signature()?;
            }
            b'v' => {
                let Signature(types) = self.signature()?;
                if !self.value(containers, types)?.is_empty() {
                    return None;
                }
            }
            b'a' => {
                self.array(containers, others)?;
                return Some(behind_type(others));
            }
            b'(' => {
                self.align(8)?;
                let mut types = self.value(containers, others)?;
                while types.first() != Some(&b')') {
                    types = self.value(containers, types)?;
                }
                return Some(&types[1..]);
            }
            _ => return None,
        }
        Some(others)
    }

    /// Passes over an array of the type in front.
    fn array(&mut self, containers: usize, types: &[u8]) -> Option<()> {
        let len = self.number()?;
        let code = *types.first()?;
        self.align(match code {
            b'n' | b'q' => 2,
            b'b' | b'i' | b'u' | b'h' | b's' | b'o' | b'a' => 4,
            b'x' | b't' | b'd' | b'(' | b'{' => 8,
            _ => 1,
        })?;
        let first = self.place;
        let elements = self.take(len as usize)?;
        if len > ARRAY_LIMIT {
            return None;
        }
        let width = match code {
            b'y' => 1,
            b'n' | b'q' => 2,
            b'i' | b'u' | b'h' => 4,
            b'x' | b't' | b'd' => 8,
            _ => 0,
        };
        if width > 0 {
            let fits = elements.is_empty() || containers > 0 && elements.len() % width == 0;
            return fits.then_some(());
        }
        let mut inner = Reader {
            order: self.order,
            bytes: &self.bytes[..self.place],
            place: first,
        };
        while inner.place < inner.bytes.len() {
            if code == b'{' {
                inner.align(8)?;
                let value = inner.value(containers, &types[1..])?;
                inner.value(containers, value)?;
            } else {
                inner.value(containers, types)?;
            }
        }
        Some(())
    }
}

/// Where the values of the signature end that stand at a place.
#[inline(never)]
fn value_end(order: Order, signature: Signature<'_>, bytes: &[u8], at: usize) -> Result<usize, BadValue> {
    let mut reader = Reader { order, bytes, place: at };
    let Signature(mut types) = signature;
    let mut end = at;
    while !types.is_empty() {
        types = reader.value(CONTAINERS, types).ok_or(BadValue { at: end })?;
        end = reader.place;
    }
    Ok(end)
}

// ---- messages

#[derive(Clone, Copy, Debug, PartialEq, Eq)]
enum MalformedKind {
    ByteOrder,
    MessageType,
    Version,
    Length,
    Serial,
    Fields,
    Required,
    Body,
    Descriptors,
}

#[derive(Clone, Copy, Debug, PartialEq, Eq)]
struct Malformed {
    kind: MalformedKind,
    at: u32,
}

fn malformed<T>(kind: MalformedKind, at: usize) -> Result<T, Malformed> {
    Err(Malformed { kind, at: at as u32 })
}

#[allow(dead_code)]
#[derive(Clone, Copy, Debug)]
struct Message<'a> {
    order: Order,
    kind: u8,
    flags: u8,
    serial: u32,
    fields: Fields<'a>,
    body: &'a [u8],
    bytes: &'a [u8],
}

#[derive(Clone, Copy, Debug, Default)]
struct Fields<'a> {
    path: Option<&'a str>,
    interface: Option<&'a str>,
    member: Option<&'a str>,
    error_name: Option<&'a str>,
    reply_serial: Option<u32>,
    reply_serial_place: Option<usize>,
    destination: Option<&'a str>,
    sender: Option<&'a str>,
    signature: Option<Signature<'a>>,
    descriptors: Option<u32>,
}

impl Default for Signature<'_> {
    fn default() -> Self {
        Signature(b"")
    }
}

/// Puts a field in where none of its kind stands.
fn put<T>(slot: &mut Option<T>, value: T) -> Option<()> {
    if slot.is_some() {
        return None;
    }
    *slot = Some(value);
    Some(())
}

/// A text in its grammar, which lets ASCII alone pass.
fn checked<'a>(is_good: fn(&[u8]) -> bool, text: &'a [u8]) -> Option<&'a str> {
    if is_good(text) { str::from_utf8(text).ok() } else { None }
}

impl<'a> Fields<'a> {
    /// Reads the next field.
    fn read_one(&mut self, reader: &mut Reader<'a>) -> Option<()> {
        reader.align(8)?;
        let code = reader.byte()?;
        let expected = match code {
            0 => return None,
            1 => b'o',
            5 | 9 => b'u',
            8 => b'g',
            2..=7 => b's',
            _ => {
                reader.value(CONTAINERS, b"v")?;
                return Some(());
            }
        };
        if reader.take(3)? != [1, expected, 0] {
            return None;
        }
        match code {
            1 => put(&mut self.path, checked(is_path, reader.text()?)?),
            2 => put(&mut self.interface, checked(is_interface, reader.text()?)?),
            3 => put(&mut self.member, checked(is_member, reader.text()?)?),
            4 => put(&mut self.error_name, checked(is_interface, reader.text()?)?),
            5 => {
                let place = reader.place;
                let serial = reader.number()?;
                if serial == 0 {
                    return None;
                }
                self.reply_serial_place = Some(place);
                put(&mut self.reply_serial, serial)
            }
            6 => put(&mut self.destination, checked(is_bus_name, reader.text()?)?),
            7 => put(&mut self.sender, checked(is_bus_name, reader.text()?)?),
            8 => put(&mut self.signature, reader.signature()?),
            _ => put(&mut self.descriptors, reader.number()?),
        }
    }

    fn has_required(&self, kind: u8) -> bool {
        match kind {
            1 => self.path.is_some() && self.member.is_some(),
            2 => self.reply_serial.is_some(),
            3 => self.error_name.is_some() && self.reply_serial.is_some(),
            4 => self.path.is_some() && self.interface.is_some() && self.member.is_some(),
            _ => true,
        }
    }
}

/// The first sixteen bytes of a message.
#[derive(Clone, Copy)]
struct Head {
    order: Order,
    fields_len: u32,
    serial: u32,
    start: usize,
    len: usize,
}

fn read_head(bytes: &[u8]) -> Result<Head, Malformed> {
    let order = match bytes[0] {
        b'l' => Order::Little,
        b'B' => Order::Big,
        _ => return malformed(MalformedKind::ByteOrder, 0),
    };
    if bytes[1] == 0 {
        return malformed(MalformedKind::MessageType, 1);
    }
    if bytes[3] != 1 {
        return malformed(MalformedKind::Version, 3);
    }
    let number = |at: usize| {
        let cells = [bytes[at], bytes[at + 1], bytes[at + 2], bytes[at + 3]];
        match order {
            Order::Little => u32::from_le_bytes(cells),
            Order::Big => u32::from_be_bytes(cells),
        }
    };
    let fields_len = number(12);
    if fields_len > 1 << 26 {
        return malformed(MalformedKind::Length, 12);
    }
    let start = (16 + fields_len as usize).next_multiple_of(8);
    let len = start + number(4) as usize;
    if len > 1 << 27 {
        return malformed(MalformedKind::Length, 4);
    }
    let serial = number(8);
    if serial == 0 {
        return malformed(MalformedKind::Serial, 8);
    }
    Ok(Head { order, fields_len, serial, start, len })
}

/// The message that the bytes are, which are as many as they state.
#[inline(never)]
fn decode(bytes: &[u8]) -> Result<Message<'_>, Malformed> {
    let head = read_head(bytes)?;
    let fields_end = 16 + head.fields_len as usize;
    let mut fields = Fields::default();
    let mut reader = Reader {
        order: head.order,
        bytes: &bytes[..fields_end],
        place: 16,
    };
    let mut end = 16;
    while end < fields_end {
        if fields.read_one(&mut reader).is_none() {
            return malformed(MalformedKind::Fields, end);
        }
        end = reader.place;
    }
    if bytes[fields_end..head.start].iter().any(|byte| *byte != 0) {
        return malformed(MalformedKind::Fields, end);
    }
    let kind = bytes[1];
    if !fields.has_required(kind) {
        return malformed(MalformedKind::Required, 12);
    }
    match value_end(head.order, fields.signature.unwrap_or_default(), bytes, head.start) {
        Ok(end) if end == bytes.len() => (),
        Ok(end) => return malformed(MalformedKind::Body, end),
        Err(bad) => return malformed(MalformedKind::Body, bad.at),
    }
    if fields.descriptors.is_some_and(|number| number != 0) {
        return malformed(MalformedKind::Descriptors, 12);
    }
    Ok(Message {
        order: head.order,
        kind,
        flags: bytes[2],
        serial: head.serial,
        fields,
        body: &bytes[head.start..],
        bytes,
    })
}

// ---- inputs

/// Five entries of an `a{sv}`, as a portal's options have them: a string, a number, a boolean, bytes and strings.
static FIVE_ENTRIES: &[u8] = b"\
    \x0c\0\0\0handle_token\0\x01s\0\x10\0\0\0portal2384762398\0\0\0\0\0\0\0\0\
    \x07\0\0\0version\0\x01u\0\0\x05\0\0\0\0\0\0\0\
    \x05\0\0\0modal\0\x01b\0\0\0\0\x01\0\0\0\0\0\0\0\
    \x0e\0\0\0current_folder\0\x02ay\0\0 \0\0\0/home/someone/Documents/Letters\0\0\0\0\0\
    \x0c\0\0\0accept_types\0\x02as\0\0\0\04\0\0\0\x0a\0\0\0text/plain\0\0\x09\0\0\0image/png\0\0\0\x0f\0\0\0application/pdf\0";

/// A call with five header fields and a short body.
static CALL: &[u8] = b"\
    l\x01\0\x01,\0\0\0\x07\0\0\0\x95\0\0\0\
    \x01\x01o\0\x1f\0\0\0/org/freedesktop/portal/desktop\0\
    \x02\x01s\0\x1f\0\0\0org.freedesktop.portal.Settings\0\
    \x03\x01s\0\x07\0\0\0ReadAll\0\
    \x06\x01s\0\x1e\0\0\0org.freedesktop.portal.Desktop\0\0\
    \x08\x01g\0\x07ssa{sv}\0\0\0\0\
    \x05\0\0\0:1.42\0\0\0\0\0\0\0\0\0\0\0\x14\0\0\0\
    \x07\0\0\0version\0\x01u\0\0\x02\0\0\0";

/// A body `a{sv}` of fifty entries, twice.
fn dictionaries() -> Vec<u8> {
    let mut bytes = Vec::new();
    for _ in 0..2 {
        bytes.extend_from_slice(&2400u32.to_le_bytes());
        bytes.extend_from_slice(&[0; 4]);
        for _ in 0..10 {
            bytes.extend_from_slice(FIVE_ENTRIES);
        }
    }
    bytes
}

/// A body `ay` of a mebibyte, twice.
fn byte_arrays() -> Vec<u8> {
    let mut bytes = Vec::new();
    for _ in 0..2 {
        bytes.extend_from_slice(&1_048_576u32.to_le_bytes());
        bytes.extend((0..1_048_576u32).map(|index| (index % 251) as u8));
    }
    bytes
}

/// A method call with the serial 7, and the same with the serial 8.
fn calls() -> Vec<u8> {
    let mut bytes = [CALL, CALL].concat();
    bytes[220] = 8;
    bytes
}

// ---- measures

const MEASURES: u32 = 300;

/// Passes over the values that stand one after the other, again and again. Each call begins where the one before ended.
fn walk(signature: Signature<'_>, bytes: &[u8], calls: u32) -> bool {
    let mut end = 0;
    for _ in 0..calls {
        let at = if end < bytes.len() { end } else { 0 };
        match value_end(Order::Little, signature, bytes, at) {
            Ok(behind) => end = behind,
            Err(_) => return false,
        }
    }
    end == bytes.len()
}

/// Whether the bytes are as many as they state.
fn is_whole(bytes: &[u8]) -> bool {
    bytes.len() >= 16 && read_head(bytes).is_ok_and(|head| head.len == bytes.len())
}

/// Reads two messages in turn, whose serials tell which comes next.
fn read(first: &[u8], second: &[u8], calls: u32) -> bool {
    if !is_whole(first) || !is_whole(second) {
        return false;
    }
    let mut serial = 0;
    for _ in 0..calls {
        match decode(if serial == 7 { second } else { first }) {
            Ok(message) => serial = message.serial,
            Err(_) => return false,
        }
    }
    serial == 8
}

/// The shortest time that a measure takes, of many that are good.
fn shortest(mut measure: impl FnMut() -> bool) -> Duration {
    let mut shortest = Duration::MAX;
    for _ in 0..MEASURES {
        let start = Instant::now();
        let is_good = measure();
        let taken = start.elapsed();
        if is_good && taken < shortest {
            shortest = taken;
        }
    }
    shortest
}

/// Prints the line of an input, which stands twice in the bytes.
fn print_line(name: &str, time: Duration, calls: u32, bytes: &[u8]) {
    let hundredths = time.as_nanos().saturating_mul(100) / calls as u128;
    let sum = bytes.iter().fold(0u32, |sum, byte| sum.wrapping_mul(31).wrapping_add(*byte as u32));
    println!("{name} {}.{:02} {} {sum}", hundredths / 100, hundredths % 100, bytes.len() / 2);
}

fn main() -> ExitCode {
    let (Ok(entries), Ok(array)) = (Signature::read(b"a{sv}"), Signature::read(b"ay")) else {
        return ExitCode::FAILURE;
    };
    let dictionaries = dictionaries();
    let arrays = byte_arrays();
    let messages = calls();
    let (first, second) = messages.split_at(messages.len() / 2);
    if std::env::args().count() > 1 {
        let time = shortest(|| walk(entries, &dictionaries, 100));
        print_line("dictionary", time, 100, &dictionaries);
        let time = shortest(|| walk(array, &arrays, 20_000));
        print_line("byte_array", time, 20_000, &arrays);
        let time = shortest(|| read(first, second, 1_000));
        print_line("decode", time, 1_000, &messages);
        // It has nothing that is known, so that the proved `decode_knowing` is beside the same reading.
        let time = shortest(|| read(first, second, 1_000));
        print_line("decode_knowing", time, 1_000, &messages);
    }
    if walk(entries, &dictionaries, 2) && walk(array, &arrays, 2) && read(first, second, 2) {
        ExitCode::SUCCESS
    } else {
        ExitCode::FAILURE
    }
}
