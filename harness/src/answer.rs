//! Answers and their text.

use std::fmt;

#[derive(Clone, PartialEq, Eq, Debug)]
pub enum Answer {
    Ok,
    Term(usize),
    Conflict(Vec<Leaf>),
    Split { atoms: Vec<usize>, guards: Vec<u32>, phases: Vec<Option<bool>> },
    Sat,
    Unknown,
    Refused(u32),
}

#[derive(Clone, Copy, PartialEq, Eq, Hash, Debug)]
pub enum Leaf {
    Literal(u32),
    Interface { theory: u16, tag: u32 },
}

impl Answer {
    /// Appends the answer's text, without its LF.
    pub fn write(&self, out: &mut Vec<u8>) {
        match self {
            Answer::Ok => out.extend_from_slice(b"ok=1"),
            Answer::Term(number) => {
                out.extend_from_slice(b"term=");
                write_number(*number, out);
            }
            Answer::Conflict(leaves) => {
                out.extend_from_slice(b"conflict=");
                write_list(leaves, out, |leaf, out| leaf.write(out));
            }
            Answer::Split { atoms, guards, phases } => {
                out.extend_from_slice(b"split=");
                write_list(atoms, out, |&atom, out| write_number(atom, out));
                out.push(b';');
                write_list(guards, out, |&guard, out| write_number(guard as usize, out));
                out.push(b';');
                write_list(phases, out, |&phase, out| out.push(if phase == Some(true) { b'1' } else { b'-' }));
            }
            Answer::Sat => out.extend_from_slice(b"sat=1"),
            Answer::Unknown => out.extend_from_slice(b"unknown=1"),
            Answer::Refused(question) => {
                out.extend_from_slice(b"refused=");
                write_number(*question as usize, out);
            }
        }
    }
}

impl Leaf {
    fn write(&self, out: &mut Vec<u8>) {
        match self {
            Leaf::Literal(code) => {
                out.push(b'a');
                write_number(*code as usize, out);
            }
            Leaf::Interface { theory, tag } => {
                out.push(b'i');
                write_number(usize::from(*theory), out);
                out.push(b'.');
                write_number(*tag as usize, out);
            }
        }
    }
}

/// The items parted by commas.
fn write_list<T>(items: &[T], out: &mut Vec<u8>, write: impl Fn(&T, &mut Vec<u8>)) {
    for (place, item) in items.iter().enumerate() {
        if place > 0 {
            out.push(b',');
        }
        write(item, out);
    }
}

fn write_number(number: usize, out: &mut Vec<u8>) {
    let start = out.len();
    let mut rest = number;
    loop {
        out.push(b'0' + (rest % 10) as u8);
        rest /= 10;
        if rest == 0 {
            break;
        }
    }
    out[start..].reverse();
}

impl fmt::Display for Answer {
    fn fmt(&self, f: &mut fmt::Formatter<'_>) -> fmt::Result {
        let mut text = Vec::new();
        self.write(&mut text);
        f.write_str(std::str::from_utf8(&text).expect("an answer is ASCII"))
    }
}
