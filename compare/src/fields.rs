//! Records with usual, extreme and random fields.

use reference::limits::*;
use reference::random::Random;
use reference::record::{self, KINDS};

/// Numbers at the ends of what a field can be.
const EXTREMES: [i32; 12] =
    [i32::MIN, i32::MIN + 1, -257, -256, -3, -2, -1, 0, 1, 1 << 16, i32::MAX - 1, i32::MAX];

/// A record of a kind, each field extreme in so many of a hundred cases.
pub fn any_record(row: usize, extreme: usize, random: &mut Random) -> Vec<u8> {
    let (kind, _, body) = KINDS[row];
    let mut record = vec![kind];
    for i in 0..(body / 4).min(3) {
        let is_extreme = random.percent(extreme);
        let field = if is_extreme { extreme_field(random) } else { usual_field(kind, i, random) };
        record.extend_from_slice(&field.to_le_bytes());
    }
    let mut bytes: Vec<u8> = (record.len()..1 + body).map(|_| random.word() as u8).collect();
    mostly_clean(&record, &mut bytes, random);
    record.extend(bytes);
    record
}

/// Behind a send's message mostly zeros are put, since it is refused with other bytes there; at times zeros and one other byte, at times
/// nothing.
pub fn mostly_clean(record: &[u8], bytes: &mut [u8], random: &mut Random) {
    let (0x22, [_, msgsz, _], _) = split(record) else { return };
    let how = random.below(8);
    let end = bytes.len().min(MESSAGE);
    let tail = &mut bytes[end.min(msgsz.max(0) as usize)..end];
    if how > 0 {
        tail.fill(0);
    }
    if how == 1 && !tail.is_empty() {
        tail[random.below(tail.len())] = random.between(1, i32::from(u8::MAX)) as u8;
    }
}

/// A kind that no call has.
pub fn unknown_kind(random: &mut Random) -> u8 {
    loop {
        let kind = random.word() as u8;
        if record::body_length(kind).is_none() {
            return kind;
        }
    }
}

pub fn any_bytes(most: usize, random: &mut Random) -> Vec<u8> {
    (0..random.below(most + 1)).map(|_| random.word() as u8).collect()
}

fn extreme_field(random: &mut Random) -> i32 {
    match random.below(4) {
        0 => random.pick(&near_limits(&[POOL_BYTES as u32, 768, 769])) as i32,
        1 => random.word() as i32,
        _ => random.pick(&EXTREMES),
    }
}

/// A field in the range that the call takes.
fn usual_field(kind: u8, i: usize, random: &mut Random) -> i32 {
    let priorities = i32::from(PRIORITIES);
    let mut up_to = |limit: usize| random.between(1, limit as i32);
    match (kind, i) {
        (0x01, _) | (0x06, 1) => random.between(0, priorities),
        (0x06, _) => random.between(0, TASKS as i32),
        (0x02..=0x05, _) => up_to(TASKS),
        (0x10, 0) => random.between(0, 3),
        (0x10, _) => random.between(1, priorities),
        (0x11..=0x13, 0) => up_to(MUTEXES),
        (0x20, 0) => random.between(0, 1),
        (0x20, 1) => random.between(0, STRETCH as i32),
        (0x20, _) | (0x22, 1) => up_to(MESSAGE),
        (0x21..=0x23, 0) => up_to(BUFFERS),
        (0x30, 0) => random.pick(&[0, 1, 256, 257, 512, 513, 768, 769]),
        (0x30, 1) | (0x33, 1) => up_to(BLOCKS),
        (0x30, _) => up_to(BLOCK_SIZE),
        (0x31..=0x33, 0) => up_to(POOLS),
        // A timeout.
        _ => random.pick(&[-1, -1, 0, 1, 2, 1000]),
    }
}

/// Kind, fields and message of a record.
pub fn split(record: &[u8]) -> (u8, [i32; 3], &[u8]) {
    let mut fields = [0; 3];
    for (field, bytes) in fields.iter_mut().zip(record[1..].chunks_exact(4)) {
        *field = i32::from_le_bytes([bytes[0], bytes[1], bytes[2], bytes[3]]);
    }
    (record[0], fields, record.get(13..).unwrap_or_default())
}
