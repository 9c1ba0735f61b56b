//! Document 01, "Track and capture": the records of a track.

use crate::convert::{carried, Format, SLOT};

/// Bytes of a record and of one of its eight slots.
pub const RECORD: usize = 24;
pub const SLOT_BYTES: usize = 3;

/// How many records a lent track holds; bytes past the last whole one don't count.
pub fn records(track: &[u8]) -> usize {
    track.len() / RECORD
}

/// Clears all whole records and no byte past them.
pub fn clear(track: &mut [u8]) {
    let whole = records(track) * RECORD;
    track[..whole].fill(0);
}

/// Lays a packet's frames from a place on; slots past the stream's channels are zero.
pub fn lay(track: &mut [u8], place: usize, data: &[u8], channels: usize, format: &Format) {
    let frames = data.chunks_exact(channels * format.size);
    let kept = track.chunks_exact_mut(RECORD).skip(place);
    for (frame, record) in frames.zip(kept) {
        record.fill(0);
        let samples = frame.chunks_exact(format.size);
        for (sample, slot) in samples.zip(record.chunks_exact_mut(SLOT_BYTES)) {
            SLOT.put(carried(format, SLOT, format.number(sample)), slot);
        }
    }
}

/// Some records as packet data; slots past the channels sent are not looked at.
pub fn sent(records: &[u8], channels: usize, format: &Format) -> Vec<u8> {
    let mut data = Vec::new();
    for record in records.chunks_exact(RECORD) {
        for slot in record.chunks_exact(SLOT_BYTES).take(channels) {
            let mut sample = vec![0; format.size];
            format.put(carried(SLOT, format, SLOT.number(slot)), &mut sample);
            data.extend(sample);
        }
    }
    data
}
