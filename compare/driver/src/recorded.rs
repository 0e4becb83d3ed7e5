//! Files on record: the Rust's answers, for programs and proofs that run without it, and a store.

use std::fs;
use std::path::{Path, PathBuf};

/// A file of the repository.
pub fn path(file: &str) -> PathBuf {
    Path::new(env!("CARGO_MANIFEST_DIR"))
        .join("../..")
        .join(file)
}

/// Whether that file is what is made now. Says so in a line.
pub fn stands(name: &str, file: &str, made: &str) -> bool {
    let record = fs::read_to_string(path(file)).unwrap_or_default();
    let same = !made.is_empty() && record == made;
    if same {
        println!("{name}: as recorded, {} lines", made.lines().count());
    } else {
        let alike = record.lines().zip(made.lines()).take_while(|(x, y)| x == y);
        println!(
            "{name}: NOT AS RECORDED from line {} of {file}",
            alike.count() + 1
        );
    }
    same
}

/// The list with its last line once more, the lowest bit of its last word flipped: a program that
/// replays the list has to report that line.
pub fn with_wrong_line(list: String) -> String {
    let last = list.lines().next_back().unwrap_or_default();
    let (front, digit) = last.split_at(last.len().saturating_sub(1));
    match u8::from_str_radix(digit, 16) {
        Ok(digit) => format!("{list}{front}{:x}\n", digit ^ 1),
        Err(_) => list,
    }
}

/// A value from 0 to 64, as sound.rt of the programs makes it: two steps of a generator by products.
pub fn value_at(seed: u64, n: u64) -> f32 {
    let modulus = 1 << 31;
    let first = (n % (1 << 20) + seed * 7_919) % modulus * 1_103_515_245 % modulus;
    let second = (first / 256 + first * 13) % modulus * 69_069 % modulus;
    let step = (second / (1 << 17) % 4_096) as f32;
    step * step / 262_144.0
}

#[cfg(test)]
mod tests {
    use super::with_wrong_line;

    #[test]
    fn the_last_line_is_wrong_by_a_bit() {
        let list = with_wrong_line("a 0\nb 3e\n".into());
        assert_eq!(list, "a 0\nb 3e\nb 3f\n");
        assert_eq!(with_wrong_line(String::new()), "");
    }
}
