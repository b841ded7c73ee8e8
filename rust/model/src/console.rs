//! "Small store, worked": its schema, and the program that reads calls as
//! lines and prints what they answer.

use crate::block::{seal, BLOCK};
use crate::call::{call, format};
use crate::operation::Operation;
use crate::reference::END;
use crate::schema::Schema;
use crate::status::Status;

/// "BOTL: K 4, D 4, R 5. PNTS: D 4, R 6, one path BOTLLKPT."
pub fn small_store() -> [u8; BLOCK] {
    let mut schema = [0; BLOCK];
    schema[..3].copy_from_slice(&[1, 1, 1]);
    schema[16..20].copy_from_slice(b"BOTL");
    schema[20..29].copy_from_slice(&[1, 0, 0, 4, 0, 0, 0, 5, 4]);
    schema[64..68].copy_from_slice(b"PNTS");
    schema[68..77].copy_from_slice(&[2, 1, 0, 4, 0, 0, 0, 6, 0]);
    schema[80..82].copy_from_slice(b"PT");
    seal(&mut schema, 0);
    schema
}

/// "A line over 128 bytes [...] prints its number, FORM, -, -"
const LONGEST_LINE: usize = 128;

/// Formats the small store, makes the call of each line, and gives what is
/// printed.
pub fn run(input: &[u8]) -> Vec<u8> {
    let mut store = Store::formatted();
    let mut printed = Vec::new();
    for (index, line) in lines(input).enumerate() {
        let answer = match Line::read(line) {
            Some(line) => store.answer(&line),
            None => b"FORM - -".to_vec(),
        };
        printed.extend_from_slice(format!("{} ", index + 1).as_bytes());
        printed.extend_from_slice(&answer);
        printed.push(b'\n');
    }
    printed
}

/// A last line without newline counts; nothing after the last newline is no
/// line.
fn lines(input: &[u8]) -> impl Iterator<Item = &[u8]> {
    input
        .split_inclusive(|&byte| byte == b'\n')
        .map(|line| line.strip_suffix(b"\n").unwrap_or(line))
}

/// "six blank-separated fields a line (operation, set, reference, path, key,
/// area; "-" is empty [...])"
struct Line<'a> {
    operation: [u8; 5],
    set: [u8; 4],
    reference: u32,
    path: [u8; 8],
    key: &'a [u8],
    area: &'a [u8],
}

impl<'a> Line<'a> {
    /// `None` for a line "not so made".
    fn read(line: &'a [u8]) -> Option<Line<'a>> {
        if line.len() > LONGEST_LINE {
            return None;
        }
        let fields: Vec<&[u8]> = line.split(|&byte| byte == b' ').collect();
        let [operation, set, reference, path, key, area] = fields[..] else {
            return None;
        };
        Some(Line {
            operation: operation.try_into().ok()?,
            set: name_or_blanks(set)?,
            reference: read_reference(reference)?,
            path: name_or_blanks(path)?,
            key: bytes_or_empty(key)?,
            area: bytes_or_empty(area)?,
        })
    }
}

/// "a set or path of "-" is passed as blanks"
fn name_or_blanks<const N: usize>(field: &[u8]) -> Option<[u8; N]> {
    if field == b"-" {
        return Some([b' '; N]);
    }
    field.try_into().ok()
}

/// A field has at least one byte: two blanks side by side make a bad line.
fn bytes_or_empty(field: &[u8]) -> Option<&[u8]> {
    match field {
        b"" => None,
        b"-" => Some(b""),
        bytes => Some(bytes),
    }
}

/// "References are decimal up to 4,294,967,295, or the four characters `LKxx`
/// (xx capitals or digits) or `END.`"
fn read_reference(field: &[u8]) -> Option<u32> {
    if let Ok(four) = <[u8; 4]>::try_from(field) {
        let number = u32::from_be_bytes(four);
        if is_written_out(number) {
            return Some(number);
        }
    }
    let digits = std::str::from_utf8(field).ok()?;
    let only_digits = !digits.is_empty() && digits.bytes().all(|byte| byte.is_ascii_digit());
    only_digits.then(|| digits.parse().ok()).flatten()
}

/// Whether a reference is END. or some LKxx.
fn is_written_out(reference: u32) -> bool {
    let [l, k, xx @ ..] = reference.to_be_bytes();
    let some_lk = [l, k] == *b"LK"
        && xx
            .iter()
            .all(|byte| byte.is_ascii_uppercase() || byte.is_ascii_digit());
    some_lk || reference == END
}

/// "print as those characters where they equal them, else in decimal"
fn print_reference(reference: u32) -> Vec<u8> {
    if is_written_out(reference) {
        reference.to_be_bytes().to_vec()
    } else {
        reference.to_string().into_bytes()
    }
}

struct Store {
    schema: [u8; BLOCK],
    base: Vec<u8>,
}

impl Store {
    fn formatted() -> Store {
        let schema = small_store();
        let length = Schema::decode(&schema).map_or(0, |schema| schema.base_length());
        let mut base = vec![0; length];
        format(&mut base);
        Store { schema, base }
    }

    /// Makes the call, and gives code, reference and area as they are printed.
    fn answer(&mut self, line: &Line) -> Vec<u8> {
        let read = Operation::named(&line.operation).is_some_and(Operation::is_read);
        let mut area = if read {
            self.own_area(&line.set)
        } else {
            line.area.to_vec()
        };
        let (status, reference) = call(
            &line.operation,
            &line.set,
            line.reference,
            &line.path,
            line.key,
            &mut area,
            &self.schema,
            &mut self.base,
        );
        let gave_record = read && status == Status::Done && reference != END;
        let shown = if gave_record { area } else { b"-".to_vec() };
        let reference = print_reference(reference);
        [status.code().as_bytes(), &reference, &shown].join(&b' ')
    }

    /// "for reads it lends its own area of the right length". For a set that
    /// is not there no length is right, and the call is FNTF anyway.
    fn own_area(&self, set: &[u8; 4]) -> Vec<u8> {
        let length = Schema::decode(&self.schema).and_then(|schema| {
            let entry = schema.entry_named(set)?;
            Some(schema.entries[entry].area_length())
        });
        vec![0; length.unwrap_or(0)]
    }
}
