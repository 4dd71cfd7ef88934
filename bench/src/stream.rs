//! The program `common` as a user would write it in Rust over the sweep: records of 34 bytes on standard input, the
//! text of their common region on standard output.

use std::io::{Read, Write};

use crate::draw::{zones, Rng, Zones};
use crate::sweep;

const MARK: [u8; 2] = [0x52, 0x31];
const RECORD: usize = 34;

/// The stream of n zones.
pub fn write(n: usize) {
    let mut bytes = Vec::new();
    for zone in zones(Zones::Shuffled, n, &mut Rng::new()).chunks_exact(4) {
        bytes.extend(MARK);
        zone.iter().for_each(|x| bytes.extend(x.to_le_bytes()));
    }
    std::io::stdout().write_all(&bytes).expect("standard output can be written");
}

fn answer(bytes: &[u8]) -> String {
    let mut list = Vec::new();
    for record in bytes.chunks(RECORD) {
        if record.len() < RECORD || record[..2] != MARK {
            return "refused 7\n".to_string();
        }
        if list.len() == 2048 {
            return "refused 5\n".to_string();
        }
        list.extend(
            record[2..].chunks_exact(8).map(|b| f64::from_le_bytes(b.try_into().expect("eight bytes"))),
        );
    }
    let mut out = vec![0.0; 2048];
    let found = sweep::common_region(&list, &mut out);
    match found.refusal {
        0 => {}
        1 | 21 | 22 | 23 => return format!("refused {} at {}\n", found.refusal, found.entry),
        n => return format!("refused {n}\n"),
    }
    let mut text = format!("pieces {}\n", found.count);
    for p in out[..4 * found.count].chunks_exact(4) {
        let [a, b, c, d] = [0, 1, 2, 3].map(|i| p[i].to_bits());
        text.push_str(&format!("{a:016X} {b:016X} {c:016X} {d:016X}\n"));
    }
    text
}

pub fn run() {
    let mut bytes = Vec::new();
    std::io::stdin().read_to_end(&mut bytes).expect("standard input can be read");
    std::io::stdout().write_all(answer(&bytes).as_bytes()).expect("standard output can be written");
}
