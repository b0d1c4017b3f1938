//! Writes the bytes of logs and formulas, command by command.

pub const ADD: u8 = 0x23;
pub const SUB: u8 = 0x24;
pub const LESS: u8 = 0x25;
pub const AT_MOST: u8 = 0x26;
pub const EQUAL: u8 = 0x27;
pub const NOT: u8 = 0x28;
pub const AND: u8 = 0x29;
pub const OR: u8 = 0x2A;
pub const IF: u8 = 0x2B;

/// Bytes from hexadecimal digits; everything else is skipped.
pub fn hex(text: &str) -> Vec<u8> {
    let digits: Vec<u32> = text.chars().filter_map(|c| c.to_digit(16)).collect();
    digits
        .chunks(2)
        .map(|two| (two[0] * 16 + two[1]) as u8)
        .collect()
}

/// The parts one behind the other.
pub fn join(parts: &[Vec<u8>]) -> Vec<u8> {
    parts.concat()
}

/// The parts one behind the other, and END.
pub fn file(parts: &[Vec<u8>]) -> Vec<u8> {
    let mut bytes = parts.concat();
    bytes.push(0x00);
    bytes
}

pub fn field(kind: u8) -> Vec<u8> {
    vec![0x01, kind]
}

pub fn event(values: &[u32]) -> Vec<u8> {
    let mut bytes = vec![0x02];
    values
        .iter()
        .for_each(|value| bytes.extend(value.to_be_bytes()));
    bytes
}

/// An event that may lack fields; a value of those is written as 0.
pub fn lacking(values: &[Option<u32>]) -> Vec<u8> {
    let bit = |(field, value): (usize, &Option<u32>)| u8::from(value.is_some()) << field;
    let mut bytes = vec![0x03, values.iter().enumerate().map(bit).sum()];
    values
        .iter()
        .for_each(|value| bytes.extend(value.unwrap_or(0).to_be_bytes()));
    bytes
}

/// The clock was set.
pub fn mark() -> Vec<u8> {
    vec![0x04]
}

/// A log of the given field kinds; an event is one that may lack fields only
/// where it does.
pub fn log_lacking(kinds: &[u8], events: &[&[Option<u32>]]) -> Vec<u8> {
    log_marked(kinds, &[events])
}

/// The same in stretches, with a mark before each but the first.
pub fn log_marked(kinds: &[u8], stretches: &[&[&[Option<u32>]]]) -> Vec<u8> {
    let mut parts: Vec<Vec<u8>> = kinds.iter().map(|&kind| field(kind)).collect();
    let whole = |values: &[Option<u32>]| values.iter().copied().collect::<Option<Vec<u32>>>();
    for (number, events) in stretches.iter().enumerate() {
        parts.extend((number > 0).then(mark));
        parts.extend(events.iter().map(|values| match whole(values) {
            Some(values) => event(&values),
            None => lacking(values),
        }));
    }
    file(&parts)
}

/// A log of the given field kinds and events.
pub fn log(kinds: &[u8], events: &[&[u32]]) -> Vec<u8> {
    let mut parts: Vec<Vec<u8>> = kinds.iter().map(|&kind| field(kind)).collect();
    parts.extend(events.iter().map(|values| event(values)));
    file(&parts)
}

pub fn tied(variable: u8) -> Vec<u8> {
    vec![0x16, variable]
}

pub fn state(kind: u8) -> Vec<u8> {
    vec![0x10, kind]
}

pub fn step(target: u8) -> Vec<u8> {
    vec![0x11, target]
}

pub fn test(field: u8, operator: u8, value: u32) -> Vec<u8> {
    let mut bytes = vec![0x12, field, operator];
    bytes.extend(value.to_be_bytes());
    bytes
}

pub fn testv(field: u8, operator: u8, variable: u8) -> Vec<u8> {
    vec![0x13, field, operator, variable]
}

pub fn bind(field: u8, variable: u8) -> Vec<u8> {
    vec![0x14, field, variable]
}

/// The variable is 8 to 11.
pub fn gather(field: u8, variable: u8) -> Vec<u8> {
    vec![0x17, field, variable]
}

pub fn guard(expression: Vec<u8>) -> Vec<u8> {
    join(&[vec![0x15], expression])
}

pub fn constant(value: u32) -> Vec<u8> {
    let mut bytes = vec![0x20];
    bytes.extend(value.to_be_bytes());
    bytes
}

pub fn var(variable: u8) -> Vec<u8> {
    vec![0x21, variable]
}

pub fn count(state: u8) -> Vec<u8> {
    vec![0x22, state]
}

/// The sum of a list, its variable 8 to 11.
pub fn sum(variable: u8) -> Vec<u8> {
    vec![0x2C, variable]
}

pub fn length(variable: u8) -> Vec<u8> {
    vec![0x2D, variable]
}

/// The number of different values of a list.
pub fn different(variable: u8) -> Vec<u8> {
    vec![0x2E, variable]
}

/// An expression command with its operands.
pub fn op(code: u8, operands: &[Vec<u8>]) -> Vec<u8> {
    join(&[vec![code], operands.concat()])
}
