//! The floor that ranges.sh measures against: reads a file, walks its boxes, and copies each sample's payload into a
//! list of its own. It keeps no times, no order and no ranges, and checks nothing that a reader of hostile files has to.
use std::env;
use std::fs;

fn number(bytes: &[u8], at: usize) -> usize {
    u32::from_be_bytes(bytes[at..at + 4].try_into().unwrap()) as usize
}

// Calls `each` with the type, the payload and the offset of each box.
fn boxes<'a>(bytes: &'a [u8], mut each: impl FnMut(&[u8], &'a [u8], usize)) {
    let mut at = 0;
    while at + 8 <= bytes.len() {
        let size = number(bytes, at).clamp(8, bytes.len() - at);
        each(&bytes[at + 4..at + 8], &bytes[at + 8..at + size], at);
        at += size;
    }
}

fn main() {
    let name = env::args().nth(1).expect("a file");
    let bytes = fs::read(name).expect("a file that can be read");
    let mut stored: Vec<Vec<u8>> = Vec::new();
    let mut used = 0;
    boxes(&bytes, |kind, payload, start| {
        if kind != b"moof" {
            return;
        }
        boxes(payload, |kind, traf, _| {
            if kind != b"traf" {
                return;
            }
            boxes(traf, |kind, run, _| {
                if kind != b"trun" {
                    return;
                }
                let mut place = start + number(run, 8);
                for i in 0..number(run, 4) {
                    let size = number(run, 12 + 16 * i + 4);
                    stored.push(bytes[place..place + size].to_vec());
                    used += size;
                    place += size;
                }
            });
        });
    });
    println!("frames {} used {used}", stored.len());
}
