//! The records of a script: one table of kinds and body lengths, a reader and a writer.

use crate::limits::MESSAGE;

/// One call with its fields as they stand in the record.
#[derive(Clone, Copy, PartialEq, Eq, Debug)]
pub enum Call {
    CreTsk { priority: i32 },
    DelTsk { task: i32 },
    StaTsk { task: i32 },
    ExtTsk,
    TerTsk { task: i32 },
    ChgPri { task: i32, priority: i32 },
    CreMtx { attribute: i32, ceiling: i32 },
    DelMtx { mutex: i32 },
    LocMtx { mutex: i32, timeout: i32 },
    UnlMtx { mutex: i32 },
    CreMbf { attribute: i32, bufsz: i32, maxmsz: i32 },
    DelMbf { buffer: i32 },
    SndMbf { buffer: i32, msgsz: i32, timeout: i32, bytes: [u8; MESSAGE] },
    RcvMbf { buffer: i32, timeout: i32 },
    CreMpf { attribute: i32, count: i32, size: i32 },
    DelMpf { pool: i32 },
    GetMpf { pool: i32, timeout: i32 },
    RelMpf { pool: i32, block: i32 },
    Tick,
}

/// Kind byte, name and body length of every call.
pub const KINDS: [(u8, &str, usize); 19] = [
    (0x01, "cre_tsk", 4),
    (0x02, "del_tsk", 4),
    (0x03, "sta_tsk", 4),
    (0x04, "ext_tsk", 0),
    (0x05, "ter_tsk", 4),
    (0x06, "chg_pri", 8),
    (0x10, "cre_mtx", 8),
    (0x11, "del_mtx", 4),
    (0x12, "loc_mtx", 8),
    (0x13, "unl_mtx", 4),
    (0x20, "cre_mbf", 12),
    (0x21, "del_mbf", 4),
    (0x22, "snd_mbf", 12 + MESSAGE),
    (0x23, "rcv_mbf", 8),
    (0x30, "cre_mpf", 12),
    (0x31, "del_mpf", 4),
    (0x32, "get_mpf", 8),
    (0x33, "rel_mpf", 8),
    (0x40, "tick", 0),
];

const UNKNOWN: u8 = u8::MAX;

/// The same table by kind byte, so that reading a record is one look.
const BODY: [u8; 256] = {
    let mut body = [UNKNOWN; 256];
    let mut i = 0;
    while i < KINDS.len() {
        body[KINDS[i].0 as usize] = KINDS[i].2 as u8;
        i += 1;
    }
    body
};

/// The length of the body that follows a kind byte; none if the kind is unknown.
#[inline]
pub fn body_length(kind: u8) -> Option<usize> {
    match BODY[usize::from(kind)] {
        UNKNOWN => None,
        length => Some(usize::from(length)),
    }
}

/// The record at the front of the bytes and its length; none if its kind is unknown or it is cut.
#[inline]
pub fn read(bytes: &[u8]) -> Option<(Call, usize)> {
    let (&kind, rest) = bytes.split_first()?;
    let body = rest.get(..body_length(kind)?)?;
    Some((decode(kind, body)?, 1 + body.len()))
}

#[inline]
fn decode(kind: u8, body: &[u8]) -> Option<Call> {
    let field = |i: usize| {
        let at = 4 * i;
        i32::from_le_bytes([body[at], body[at + 1], body[at + 2], body[at + 3]])
    };
    Some(match kind {
        0x01 => Call::CreTsk { priority: field(0) },
        0x02 => Call::DelTsk { task: field(0) },
        0x03 => Call::StaTsk { task: field(0) },
        0x04 => Call::ExtTsk,
        0x05 => Call::TerTsk { task: field(0) },
        0x06 => Call::ChgPri { task: field(0), priority: field(1) },
        0x10 => Call::CreMtx { attribute: field(0), ceiling: field(1) },
        0x11 => Call::DelMtx { mutex: field(0) },
        0x12 => Call::LocMtx { mutex: field(0), timeout: field(1) },
        0x13 => Call::UnlMtx { mutex: field(0) },
        0x20 => Call::CreMbf { attribute: field(0), bufsz: field(1), maxmsz: field(2) },
        0x21 => Call::DelMbf { buffer: field(0) },
        0x22 => {
            let mut bytes = [0; MESSAGE];
            bytes.copy_from_slice(&body[12..]);
            Call::SndMbf { buffer: field(0), msgsz: field(1), timeout: field(2), bytes }
        }
        0x23 => Call::RcvMbf { buffer: field(0), timeout: field(1) },
        0x30 => Call::CreMpf { attribute: field(0), count: field(1), size: field(2) },
        0x31 => Call::DelMpf { pool: field(0) },
        0x32 => Call::GetMpf { pool: field(0), timeout: field(1) },
        0x33 => Call::RelMpf { pool: field(0), block: field(1) },
        0x40 => Call::Tick,
        _ => return None,
    })
}

impl Call {
    /// The kind byte of the call's record.
    pub fn kind(&self) -> u8 {
        match self {
            Call::CreTsk { .. } => 0x01,
            Call::DelTsk { .. } => 0x02,
            Call::StaTsk { .. } => 0x03,
            Call::ExtTsk => 0x04,
            Call::TerTsk { .. } => 0x05,
            Call::ChgPri { .. } => 0x06,
            Call::CreMtx { .. } => 0x10,
            Call::DelMtx { .. } => 0x11,
            Call::LocMtx { .. } => 0x12,
            Call::UnlMtx { .. } => 0x13,
            Call::CreMbf { .. } => 0x20,
            Call::DelMbf { .. } => 0x21,
            Call::SndMbf { .. } => 0x22,
            Call::RcvMbf { .. } => 0x23,
            Call::CreMpf { .. } => 0x30,
            Call::DelMpf { .. } => 0x31,
            Call::GetMpf { .. } => 0x32,
            Call::RelMpf { .. } => 0x33,
            Call::Tick => 0x40,
        }
    }

    /// The call's place in [`KINDS`].
    pub fn row(&self) -> usize {
        let kind = self.kind();
        KINDS.iter().position(|row| row.0 == kind).unwrap_or(0)
    }

    pub fn name(&self) -> &'static str {
        KINDS[self.row()].1
    }

    /// Appends the call's record to a script.
    pub fn write(&self, script: &mut Vec<u8>) {
        script.push(self.kind());
        let mut put = |fields: &[i32]| {
            for field in fields {
                script.extend_from_slice(&field.to_le_bytes());
            }
        };
        match *self {
            Call::CreTsk { priority } => put(&[priority]),
            Call::DelTsk { task } | Call::StaTsk { task } | Call::TerTsk { task } => put(&[task]),
            Call::ExtTsk | Call::Tick => {}
            Call::ChgPri { task, priority } => put(&[task, priority]),
            Call::CreMtx { attribute, ceiling } => put(&[attribute, ceiling]),
            Call::DelMtx { mutex } | Call::UnlMtx { mutex } => put(&[mutex]),
            Call::LocMtx { mutex, timeout } => put(&[mutex, timeout]),
            Call::CreMbf { attribute, bufsz, maxmsz } => put(&[attribute, bufsz, maxmsz]),
            Call::DelMbf { buffer } => put(&[buffer]),
            Call::SndMbf { buffer, msgsz, timeout, bytes } => {
                put(&[buffer, msgsz, timeout]);
                script.extend_from_slice(&bytes);
            }
            Call::RcvMbf { buffer, timeout } => put(&[buffer, timeout]),
            Call::CreMpf { attribute, count, size } => put(&[attribute, count, size]),
            Call::DelMpf { pool } => put(&[pool]),
            Call::GetMpf { pool, timeout } => put(&[pool, timeout]),
            Call::RelMpf { pool, block } => put(&[pool, block]),
        }
    }
}
