//! Every number, by the names of the headers for C but for their `SHINEPOD_`: sizes, codes `E_..`, kinds `TK_..`, the manual's
//! attributes `TA_..`, timeouts `TMO_..` and task states `TTS_..`, the items of a log `LOG_..`, outcomes and places. The build takes
//! them from the headers.

// The headers multiply protection levels by 0 and 1.
#![allow(clippy::erasing_op, clippy::identity_op)]

include!(concat!(env!("OUT_DIR"), "/numbers.rs"));
