// Records: the field tables, the reader and the writer.
use super::block::{check, encode, source_bits, unsigned, BLOCK, HIGHEST_COUNT, PREAMBLE};
use super::{refuse, Refusal, Values};

/// A field of the message: its name, its width in bits, and whether it is two's complement.
#[derive(Debug, Clone, Copy)]
pub struct Field {
    pub name: &'static str,
    pub width: usize,
    pub signed: bool,
}

const fn field(name: &'static str, width: usize, signed: bool) -> Field {
    Field {
        name,
        width,
        signed,
    }
}

const fn u(name: &'static str, width: usize) -> Field {
    field(name, width, false)
}

const fn s(name: &'static str, width: usize) -> Field {
    field(name, width, true)
}

impl Field {
    pub fn lowest(&self) -> i64 {
        if self.signed {
            -(1 << (self.width - 1))
        } else {
            0
        }
    }

    pub fn highest(&self) -> i64 {
        self.lowest() + (1 << self.width) - 1
    }

    fn get(&self, bits: &[u8]) -> i64 {
        let number = unsigned(&bits[..self.width]) as i64;
        if number > self.highest() {
            number - (1 << self.width)
        } else {
            number
        }
    }

    fn put(&self, value: i64, bits: &mut [u8]) {
        for (i, bit) in bits[..self.width].iter_mut().enumerate() {
            *bit = (value >> (self.width - 1 - i) & 1) as u8;
        }
    }
}

// Words 1 and 2 without preamble and fillers.
const HEADER: &[Field] = &[
    u("message", 14),
    u("reserved", 2),
    u("count", 17),
    u("flag bit 18", 1),
    u("flag bit 19", 1),
    u("subframe number", 3),
];

const SUBFRAME_1: &[Field] = &[
    u("week", 10),
    u("L2 code", 2),
    u("URA index", 4),
    u("health", 6),
    u("IODC high", 2),
    u("L2P flag", 1),
    u("r", 23),
    u("r", 24),
    u("r", 24),
    u("r", 16),
    s("TGD", 8),
    u("IODC low", 8),
    u("toc", 16),
    s("af2", 8),
    s("af1", 16),
    s("af0", 22),
];

const SUBFRAME_2: &[Field] = &[
    u("IODE", 8),
    s("Crs", 16),
    s("delta n", 16),
    s("M0", 32),
    s("Cuc", 16),
    u("e", 32),
    s("Cus", 16),
    u("root A", 32),
    u("toe", 16),
    u("fit", 1),
    u("AODO", 5),
];

const SUBFRAME_3: &[Field] = &[
    s("Cic", 16),
    s("node", 32),
    s("Cis", 16),
    s("i0", 32),
    s("Crc", 16),
    s("perigee", 32),
    s("node rate", 24),
    u("IODE", 8),
    s("IDOT", 14),
];

// In the message the three low bits of af0 stand after af1; see LOW_AF0.
const ALMANAC: &[Field] = &[
    u("data ID", 2),
    u("SV ID", 6),
    u("e", 16),
    u("toa", 8),
    s("delta i", 16),
    s("node rate", 16),
    u("health", 8),
    u("root A", 24),
    s("node", 24),
    s("perigee", 24),
    s("M0", 24),
    s("af0", 11),
    s("af1", 11),
];

const UTC: &[Field] = &[
    u("data ID", 2),
    u("ID", 6),
    s("alpha 0", 8),
    s("alpha 1", 8),
    s("alpha 2", 8),
    s("alpha 3", 8),
    s("beta 0", 8),
    s("beta 1", 8),
    s("beta 2", 8),
    s("beta 3", 8),
    s("A1", 24),
    s("A0", 32),
    u("tot", 8),
    u("WNt", 8),
    s("dtLS", 8),
    u("WNLSF", 8),
    u("DN", 8),
    s("dtLSF", 8),
    u("r", 14),
];

const OTHER: &[Field] = &[
    u("data ID", 2),
    u("ID", 6),
    u("r", 16),
    u("r", 24),
    u("r", 24),
    u("r", 24),
    u("r", 24),
    u("r", 24),
    u("r", 24),
    u("r", 22),
];

// Source bits where the header begins, where the fields of word 3 begin, and where
// af1 (11 bits) and the low bits of af0 (3) stand in an almanac page.
const HEADER_START: usize = 8;
const BODY_START: usize = 48;
const LOW_AF0: std::ops::Range<usize> = 224..238;

/// The fields of words 3 to 10; empty for a kind that does not exist.
fn body(kind: u8) -> &'static [Field] {
    match kind {
        1 => SUBFRAME_1,
        2 => SUBFRAME_2,
        3 => SUBFRAME_3,
        4 => ALMANAC,
        5 => UTC,
        6 => OTHER,
        _ => &[],
    }
}

/// All fields of a kind, in the order of its values.
pub fn fields(kind: u8) -> impl Iterator<Item = &'static Field> {
    HEADER.iter().chain(body(kind))
}

/// The kind of a block with this subframe number (1 to 5) and these IDs in word 3.
pub fn kind_of(subframe: i64, data_id: i64, id: i64) -> u8 {
    match (subframe, data_id, id) {
        (1, _, _) => 1,
        (2, _, _) => 2,
        (3, _, _) => 3,
        (4 | 5, 1, 1..=32) => 4,
        (4, 1, 56) => 5,
        _ => 6,
    }
}

/// Whether number 11 of the writer does not refuse these values.
pub fn is_record(kind: u8, values: &Values) -> bool {
    let fit = fields(kind)
        .zip(values)
        .all(|(field, value)| (field.lowest()..=field.highest()).contains(value));
    let rest = &values[fields(kind).count()..];
    if !fit || rest.iter().any(|&value| value != 0) {
        return false;
    }
    let (count, subframe, data_id, id) = (values[2], values[5], values[6], values[7]);
    count <= HIGHEST_COUNT as i64
        && match kind {
            1..=3 => subframe == i64::from(kind),
            4 => (subframe == 4 || subframe == 5) && data_id == 1 && (1..=32).contains(&id),
            5 => subframe == 4 && data_id == 1 && id == 56,
            6 => (subframe == 4 || subframe == 5) && kind_of(subframe, data_id, id) == 6,
            _ => false,
        }
}

/// The kind and the record of the block at p.
pub fn read(log: &[u8], p: usize) -> Result<(u8, Values), Refusal> {
    check(log, p)?;
    let mut source = source_bits(&log[p..p + BLOCK]);
    let mut values = [0; 25];
    get_all(HEADER, &source[HEADER_START..], &mut values);
    let data_id = unsigned(&source[BODY_START..BODY_START + 2]) as i64;
    let id = unsigned(&source[BODY_START + 2..BODY_START + 8]) as i64;
    let kind = kind_of(values[5], data_id, id);
    if kind == 4 {
        // Bring the low bits of af0 behind its high bits.
        source[LOW_AF0].rotate_right(3);
    }
    let bits = &source[BODY_START..];
    get_all(body(kind), bits, &mut values[HEADER.len()..]);
    Ok((kind, values))
}

/// Write the block of a record at the start of the buffer.
pub fn write(kind: u8, values: &Values, inverted: bool, buf: &mut [u8]) -> Result<(), Refusal> {
    if !is_record(kind, values) {
        return refuse(11, 0);
    }
    if buf.len() < BLOCK {
        return refuse(12, buf.len());
    }
    let mut source = [0; 240];
    source[..HEADER_START].copy_from_slice(&PREAMBLE);
    put_all(HEADER, values, &mut source[HEADER_START..]);
    let bits = &mut source[BODY_START..];
    put_all(body(kind), &values[HEADER.len()..], bits);
    if kind == 4 {
        source[LOW_AF0].rotate_left(3);
    }
    buf[..BLOCK].copy_from_slice(&encode(&source, u8::from(inverted), true));
    Ok(())
}

fn get_all(fields: &[Field], bits: &[u8], values: &mut [i64]) {
    let mut at = 0;
    for (field, value) in fields.iter().zip(values) {
        *value = field.get(&bits[at..]);
        at += field.width;
    }
}

fn put_all(fields: &[Field], values: &[i64], bits: &mut [u8]) {
    let mut at = 0;
    for (field, value) in fields.iter().zip(values) {
        field.put(*value, &mut bits[at..]);
        at += field.width;
    }
}
