//! The lines of a script, and question 3: does a line read?

use std::ops::Deref;

const MOST_NUMBERS: usize = 17;
const MOST_THEORY: u32 = 65_535;

/// The numbers of a line, held in place: reading a line takes no memory from the heap.
#[derive(Clone, Copy, Debug, Default)]
pub struct Numbers {
    count: usize,
    list: [u32; MOST_NUMBERS],
}

impl Numbers {
    fn of(numbers: &[u32]) -> Numbers {
        let mut held = Numbers { count: numbers.len(), ..Numbers::default() };
        held.list[..numbers.len()].copy_from_slice(numbers);
        held
    }
}

impl Deref for Numbers {
    type Target = [u32];
    fn deref(&self) -> &[u32] {
        &self.list[..self.count]
    }
}

#[derive(Clone, Debug)]
pub enum Line {
    Sort { datatype: bool },
    Ctor { sort: u32, fields: Numbers },
    Fun { result: u32, arguments: Numbers },
    Close,
    Term { symbol: u32, arguments: Numbers },
    Eq(u32, u32),
    Var { variable: u32, atom: u32 },
    Equate(u32),
    Cong(u32, u32),
    Iface { sides: (u32, u32), theory: u16, tag: u32 },
    Assert(u32),
    Push,
    Pop(u32),
    Differ(u32),
    Check { full: bool },
}

/// The lines of a script; the last may lack its LF.
pub fn lines(script: &[u8]) -> impl Iterator<Item = &[u8]> {
    script.split_inclusive(|&byte| byte == b'\n').map(|line| line.strip_suffix(b"\n").unwrap_or(line))
}

pub fn read(line: &[u8]) -> Option<Line> {
    let equals = line.iter().position(|&byte| byte == b'=')?;
    let (key, value) = (&line[..equals], &line[equals + 1..]);
    if key == b"sort" {
        return read_sort(value);
    }
    let numbers = read_numbers(value)?;
    match (key, &*numbers) {
        (b"ctor", [sort, fields @ ..]) => Some(Line::Ctor { sort: *sort, fields: Numbers::of(fields) }),
        (b"fun", [result, arguments @ ..]) => Some(Line::Fun { result: *result, arguments: Numbers::of(arguments) }),
        (b"close", [1]) => Some(Line::Close),
        (b"term", [symbol, arguments @ ..]) => Some(Line::Term { symbol: *symbol, arguments: Numbers::of(arguments) }),
        (b"eq", &[t, u]) => Some(Line::Eq(t, u)),
        (b"var", &[variable, atom]) => Some(Line::Var { variable, atom }),
        (b"equate", &[literal]) => Some(Line::Equate(literal)),
        (b"cong", &[t, u]) => Some(Line::Cong(t, u)),
        (b"iface", &[t, u, theory, tag]) if theory <= MOST_THEORY => {
            Some(Line::Iface { sides: (t, u), theory: theory as u16, tag })
        }
        (b"assert", &[literal]) => Some(Line::Assert(literal)),
        (b"push", [1]) => Some(Line::Push),
        (b"pop", &[level]) => Some(Line::Pop(level)),
        (b"differ", &[literal]) => Some(Line::Differ(literal)),
        (b"check", &[effort @ (0 | 1)]) => Some(Line::Check { full: effort == 1 }),
        _ => None,
    }
}

fn read_sort(value: &[u8]) -> Option<Line> {
    match value {
        b"d" => Some(Line::Sort { datatype: true }),
        b"u" => Some(Line::Sort { datatype: false }),
        _ => None,
    }
}

fn read_numbers(value: &[u8]) -> Option<Numbers> {
    let mut numbers = Numbers::default();
    for digits in value.split(|&byte| byte == b',') {
        *numbers.list.get_mut(numbers.count)? = read_number(digits)?;
        numbers.count += 1;
    }
    Some(numbers)
}

fn read_number(digits: &[u8]) -> Option<u32> {
    let leading_zero = digits.len() > 1 && digits[0] == b'0';
    if digits.is_empty() || leading_zero {
        return None;
    }
    digits.iter().try_fold(0u32, |number, &digit| {
        if !digit.is_ascii_digit() {
            return None;
        }
        number.checked_mul(10)?.checked_add(u32::from(digit - b'0'))
    })
}
