//! The checksum of a stored plan, as the POSIX command cksum computes it, so that two engineers
//! can compare the files that they have.

use std::fmt;

use crate::figures;

/// The polynomial of the CRC without its highest power, bit 0 for the power 0.
const POLYNOMIAL: u32 = 0x04C1_1DB7;

/// What cksum prints of a file, but for the file's name.
#[derive(Clone, Copy, Debug, PartialEq, Eq)]
pub struct Checksum {
    /// The CRC of the bytes and of their number.
    pub crc: u32,
    /// How many bytes there are.
    pub length: usize,
}

/// The remainder that one byte more leaves.
fn with_byte(crc: u32, byte: u8) -> u32 {
    let start = crc ^ (u32::from(byte) << 24);
    (0..8).fold(start, |crc, _| match crc >> 31 {
        0 => crc << 1,
        _ => (crc << 1) ^ POLYNOMIAL,
    })
}

/// The bytes of a number, the lowest first, up to the last that is not 0.
fn bytes_of(number: usize) -> impl Iterator<Item = u8> {
    let bytes = number.to_le_bytes();
    let zeros = bytes.iter().rev().take_while(|&&byte| byte == 0).count();
    let used = bytes.len() - zeros;
    bytes.into_iter().take(used)
}

impl Checksum {
    /// The checksum of a file's bytes.
    pub fn of(bytes: &[u8]) -> Self {
        let length = bytes.len();
        let all = bytes.iter().copied().chain(bytes_of(length));
        Self {
            crc: !all.fold(0, with_byte),
            length,
        }
    }
}

impl fmt::Display for Checksum {
    /// The CRC and the length, as cksum prints them, and that it does.
    fn fmt(&self, formatter: &mut fmt::Formatter<'_>) -> fmt::Result {
        let Self { crc, length } = self;
        write!(
            formatter,
            "checksum {crc} {length} (as the command cksum prints it)"
        )
    }
}

/// A checksum behind some words, in a line; nothing where there is none.
pub fn line(words: &str, checksum: Option<Checksum>, columns: usize) -> String {
    checksum.map_or(String::new(), |checksum| {
        figures::wrapped("", &format!("{words}{checksum}"), columns)
    })
}

#[cfg(test)]
mod tests {
    use super::*;
    use std::io::Write;
    use std::process::{Command, Stdio};

    /// What the command cksum prints of these bytes.
    fn printed(bytes: &[u8]) -> String {
        let mut command = Command::new("cksum")
            .stdin(Stdio::piped())
            .stdout(Stdio::piped())
            .spawn()
            .unwrap();
        command.stdin.take().unwrap().write_all(bytes).unwrap();
        let output = command.wait_with_output().unwrap();
        String::from_utf8(output.stdout).unwrap()
    }

    #[test]
    fn it_is_what_the_command_prints() {
        let mixed: Vec<u8> = (0..70_000u32)
            .map(|i| (i.wrapping_mul(i) >> 5) as u8)
            .collect();
        let zeros = [0; 256];
        let cases = [
            &b""[..],
            b"a",
            b"\0",
            b"\xff\xff\xff\xff",
            &zeros[..255],
            &zeros,
            &mixed[..300],
            &mixed[..65_536],
            &mixed,
        ];
        for bytes in cases {
            let told = format!(
                "checksum {} (as the command cksum prints it)",
                printed(bytes).trim_end()
            );
            assert_eq!(Checksum::of(bytes).to_string(), told);
        }
    }

    #[test]
    fn every_bit_counts() {
        let good = [7; 40];
        let wanted = Checksum::of(&good);
        for bit in 0..8 * good.len() {
            let mut bytes = good;
            bytes[bit / 8] ^= 1 << (bit % 8);
            assert_ne!(Checksum::of(&bytes).crc, wanted.crc);
        }
    }
}
