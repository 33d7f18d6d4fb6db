//! Damaged scripts: bytes and lines changed, dropped, doubled and swapped, and scripts of any bytes.

use crate::rng::Rng;

pub fn damage(rng: &mut Rng, script: &[u8]) -> Vec<u8> {
    if rng.chance(5) {
        return any_bytes(rng);
    }
    let mut lines: Vec<Vec<u8>> = script.split_inclusive(|&byte| byte == b'\n').map(<[u8]>::to_vec).collect();
    for _ in 0..rng.between(1, 15) {
        if lines.is_empty() {
            break;
        }
        damage_once(rng, &mut lines);
    }
    let mut damaged = lines.concat();
    if rng.chance(30) && damaged.ends_with(b"\n") {
        damaged.pop();
    }
    damaged
}

fn any_bytes(rng: &mut Rng) -> Vec<u8> {
    let length = rng.below(400);
    if rng.chance(50) {
        return (0..length).map(|_| rng.below(256) as u8).collect();
    }
    let alphabet = b"sortcunlemvaqifgpushkd=,,,01234567890\n\n\n";
    (0..length).map(|_| alphabet[rng.below(alphabet.len())]).collect()
}

fn damage_once(rng: &mut Rng, lines: &mut Vec<Vec<u8>>) {
    let (place, other) = (rng.below(lines.len()), rng.below(lines.len()));
    match rng.below(9) {
        0 => {
            lines.remove(place);
        }
        1 => lines.insert(other, lines[place].clone()),
        2 => lines.swap(place, other),
        3 | 4 => change_number(rng, &mut lines[place]),
        5 => change_byte(rng, &mut lines[place]),
        6 => {
            let at = rng.below(lines[place].len().max(1));
            if at < lines[place].len() {
                lines[place].remove(at);
            }
        }
        7 => {
            let at = rng.below(lines[place].len() + 1);
            lines[place].insert(at, *rng.pick(b"0123456789,,==\n\r dau\0\xff").expect("not empty"));
        }
        _ => lines[place].truncate(rng.below(12)),
    }
}

fn change_byte(rng: &mut Rng, line: &mut [u8]) {
    if !line.is_empty() {
        line[rng.below(line.len())] = rng.below(256) as u8;
    }
}

/// Puts another digit in a digit's place, so that the line mostly still reads.
fn change_number(rng: &mut Rng, line: &mut [u8]) {
    let digits: Vec<usize> = (0..line.len()).filter(|&at| line[at].is_ascii_digit()).collect();
    if let Some(&at) = rng.pick(&digits) {
        line[at] = b'0' + rng.below(10) as u8;
    }
}
