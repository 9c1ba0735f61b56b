//! Cutting a track.

use super::{name, out};
use tashmirok::Form;

/// Check 20; gives the name with zeros after it.
#[inline]
fn form_of(form: &Form) -> Result<u128, u8> {
    let bytes = form.channels.wrapping_mul(u16::from(form.format) + 1);
    let shaped = form.rate <= 20
        && form.format <= 3
        && (1..=8).contains(&form.channels)
        && (1..=256).contains(&form.frames)
        && u32::from(form.frames) * u32::from(bytes) <= 1436;
    name::kept(form.name).filter(|_| shaped).ok_or(20)
}

/// Writes packet k of a track and gives its length.
#[inline]
fn packet(form: &Form, track: &[u8], k: u32, out: &mut [u8]) -> Result<usize, u8> {
    let name = form_of(form)?;
    if track.len() % 24 != 0 {
        return Err(22);
    }
    let (records, most) = (track.len() / 24, usize::from(form.frames));
    let first = k as usize * most;
    if first >= records || records > most << 31 {
        return Err(24);
    }
    let frames = most.min(records - first);
    let length = 28 + frames * usize::from(form.channels) * (usize::from(form.format) + 1);
    let written = out.get_mut(..length).ok_or(23)?;
    let (header, data) = written.split_first_chunk_mut::<28>().expect("a header's bytes");
    header[..4].copy_from_slice(b"VBAN");
    header[4..8].copy_from_slice(&[form.rate, (frames - 1) as u8, (form.channels - 1) as u8, form.format]);
    header[8..24].copy_from_slice(&name.to_le_bytes());
    header[24..].copy_from_slice(&form.counter.wrapping_add(k).to_le_bytes());
    out::take_out(form.format, form.channels, &track[first * 24..(first + frames) * 24], data);
    Ok(length)
}

/// With the parameters of the proved function, so that a call costs both the same.
#[inline(never)]
#[allow(clippy::too_many_arguments)]
pub fn cut(
    rate: u8,
    frames: u16,
    channels: u16,
    format: u8,
    name: &[u8; 16],
    counter: u32,
    track: &[u8],
    k: u32,
    out: &mut [u8],
    written: &mut usize,
) -> u8 {
    let form = Form { rate, frames, channels, format, name, counter };
    let (answer, length) = match packet(&form, track, k, out) {
        Ok(length) => (0, length),
        Err(refusal) => (refusal, 0),
    };
    *written = length;
    answer
}
