//! Document 01, "Numbers the bench sees": one case of each number, and what a refusal leaves.

mod common;

use common::*;
use reference::convert::convert;
use reference::cut::{cut, largest, numbered};
use reference::header::Header;
use reference::read::read;
use reference::refusal::number_of;
use reference::take::{follow, open, Laid, Take, Tally};
use reference::write::write;
use reference::Refusal;

/// Follows one datagram after packet A with counter 7, and sees that a refusal leaves all else.
fn after_a(address: [u8; 4], datagram: &[u8]) -> u8 {
    let (mut take, mut track, mut tally) = opened(4);
    follow(&mut take, &mut track, &mut tally, DESK, &A).expect("packet A is accepted");
    let (take_before, track_before, mut tally_after) = (take, track.clone(), tally);
    let answer = follow(&mut take, &mut track, &mut tally, address, datagram);
    tally_after.raise(&answer);
    assert_eq!(tally, tally_after);
    if answer.is_err() {
        assert_eq!((take, track), (take_before, track_before));
    }
    number_of(&answer)
}

/// Packet A with so many frames and channels of a type, all zero bytes of data.
fn shaped(frames: u8, channels: u8, data_type: u8, counter: u32) -> Vec<u8> {
    let mut packet = a_with(counter)[..28].to_vec();
    (packet[5], packet[6], packet[7]) = (frames - 1, channels - 1, data_type);
    let size = usize::from(data_type) + 1;
    packet.resize(28 + usize::from(frames) * usize::from(channels) * size, 0);
    packet
}

#[test]
fn accepted_0() {
    assert_eq!(after_a(DESK, &a_with(8)), 0);
}

#[test]
fn short_1_and_long_2() {
    assert_eq!(after_a(DESK, &A[..27]), 1);
    assert_eq!(after_a(DESK, &[]), 1);
    assert_eq!(after_a(DESK, &[0; 1_465]), 2);
    assert_eq!(after_a(DESK, &[0; 1_464]), 3);
}

#[test]
fn foreign_3_and_name_4() {
    assert_eq!(after_a(DESK, &a_but(3, 0x4F)), 3);
    assert_eq!(after_a(DESK, &a_but(8, 0)), 4);
    assert_eq!(after_a(DESK, &a_but(9, 0x7F)), 4);
    assert_eq!(after_a(NEXT_DOOR, &a_but(9, 0x1F)), 4);
}

#[test]
fn other_stream_5_comes_before_the_length() {
    assert_eq!(after_a(NEXT_DOOR, &a_with(8)), 5);
    assert_eq!(after_a(DESK, &a_but(12, b'5')), 5);
    assert_eq!(after_a(NEXT_DOOR, &a_with(8)[..30]), 5);
}

#[test]
fn sub_protocol_6_codec_7_reserved_8() {
    assert_eq!(after_a(DESK, &a_but(4, 0x23)), 6);
    assert_eq!(after_a(DESK, &a_but(7, 0x11)), 7);
    assert_eq!(after_a(DESK, &a_but(7, 0x19)), 7);
    assert_eq!(after_a(DESK, &a_but(7, 0x09)), 8);
}

#[test]
fn rate_9_data_type_10_length_11() {
    assert_eq!(after_a(DESK, &a_but(4, 21)), 9);
    assert_eq!(after_a(DESK, &a_but(7, 4)), 10);
    assert_eq!(after_a(DESK, &A[..31]), 11);
    assert_eq!(after_a(DESK, &[&A[..], &[0]].concat()), 11);
}

#[test]
fn channels_12_and_shape_13() {
    assert_eq!(after_a(DESK, &shaped(1, 9, 1, 8)), 12);
    assert_eq!(after_a(DESK, &shaped(1, 1, 1, 8)), 13);
    assert_eq!(after_a(DESK, &shaped(1, 2, 2, 8)), 13);
    assert_eq!(after_a(DESK, &shaped(2, 2, 1, 8)), 13);
    assert_eq!(after_a(DESK, &shaped(2, 2, 1, 7)), 13);
    assert_eq!(after_a(DESK, &a_but(4, 4)), 13);
}

#[test]
fn late_14_and_beyond_15() {
    assert_eq!(after_a(DESK, &A), 14);
    assert_eq!(after_a(DESK, &a_with(6)), 14);
    assert_eq!(after_a(DESK, &a_with(7 + 0x8000_0000)), 14);
    assert_eq!(after_a(DESK, &a_with(7 + 0x7FFF_FFFF)), 15);
    assert_eq!((after_a(DESK, &a_with(10)), after_a(DESK, &a_with(11))), (0, 15));
}

#[test]
fn state_16() {
    let (good, mut track, mut tally) = opened(1);
    follow(&mut good.clone(), &mut track, &mut tally, DESK, &A).expect("accepted");
    let mut follow_with =
        |mut take: Take| number_of(&follow(&mut take, &mut track, &mut tally, DESK, &[0; 1_465]));
    assert_eq!(follow_with(Take::default()), 16);
    assert_eq!(follow_with(good), 2);
    let begun = |channels, n, rate, data_type| {
        let begun =
            reference::take::Begun { rate, channels, data_type, n, newest: 0, newest_place: 0 };
        Take { begun: Some(begun), ..good }
    };
    for take in [begun(9, 1, 0, 0), begun(0, 1, 0, 0), begun(1, 257, 0, 0), begun(1, 0, 0, 0)] {
        assert_eq!(follow_with(take), 16);
    }
    assert_eq!((follow_with(begun(1, 1, 21, 0)), follow_with(begun(1, 1, 0, 4))), (16, 16));
    assert_eq!(tally.0[16], 7);
}

#[test]
fn a_sum_too_large_lies_beyond_any_track() {
    let (mut take, mut track, mut tally) = opened(4);
    follow(&mut take, &mut track, &mut tally, DESK, &A).expect("packet A is accepted");
    take.begun.as_mut().expect("begun").newest_place = u64::MAX;
    let answer = follow(&mut take, &mut track, &mut tally, DESK, &a_with(8));
    assert_eq!(answer, Err(Refusal::Beyond));
}

#[test]
fn a_short_packet_in_the_middle_leaves_a_hole() {
    let (mut take, mut track, mut tally) = opened(7);
    let mut lay = |frames, counter| {
        let packet = shaped(frames, 2, 1, counter);
        follow(&mut take, &mut track, &mut tally, DESK, &packet)
    };
    let laid = |place, frames, skipped| Ok(Laid { place, frames, skipped });
    assert_eq!(lay(3, u32::MAX), laid(0, 3, 0));
    assert_eq!(lay(1, 0), laid(3, 1, 0));
    assert_eq!(lay(3, 1), Err(Refusal::Beyond));
    assert_eq!(lay(1, 1), laid(6, 1, 0));
}

#[test]
fn opening_with_a_bad_name_is_4_and_leaves_the_track() {
    let mut track = [0xEE; 50];
    assert_eq!(open(&[0; 16], DESK, &mut track), Err(Refusal::Name));
    assert_eq!(track, [0xEE; 50]);
    let take = open(b"Hall4\0garbage!!!", DESK, &mut track).expect("a good name");
    assert_eq!(take.name, HALL4);
    assert!(track[..48].iter().all(|&byte| byte == 0) && track[48..] == [0xEE; 2]);
}

#[test]
fn a_track_under_24_bytes_may_be_opened() {
    let (mut track, mut tally) = ([0xEE; 23], Tally::default());
    let mut take = open(&HALL4, DESK, &mut track).expect("a good name");
    let answer = follow(&mut take, &mut track, &mut tally, DESK, &A);
    assert_eq!((answer, track), (Err(Refusal::Beyond), [0xEE; 23]));
}

#[test]
fn each_count_holds_at_its_top() {
    let mut tally = Tally([u32::MAX; 17]);
    tally.raise::<()>(&Err(Refusal::Late));
    assert_eq!(tally, Tally([u32::MAX; 17]));
}

#[test]
fn writer_20_to_23() {
    let data = [0; 1_440];
    let mut out = [0xEE; 1_464];
    let mut number = |header: Header, data: usize, room: usize| {
        number_of(&write(&header, &vec![0; data], &mut out[..room]))
    };
    for header in [
        Header { rate: 21, ..A_HEADER },
        Header { data_type: 4, ..A_HEADER },
        Header { frames: 0, ..A_HEADER },
        Header { frames: 257, ..A_HEADER },
        Header { channels: 0, ..A_HEADER },
        Header { channels: 257, ..A_HEADER },
        Header { name: [0; 16], ..A_HEADER },
    ] {
        assert_eq!(number(header, 0, 0), 20);
    }
    let big = Header { frames: 180, channels: 4, ..A_HEADER };
    assert_eq!(number(big, data.len(), 0), 21);
    assert_eq!(number(A_HEADER, 5, 0), 22);
    assert_eq!(number(A_HEADER, 4, 31), 23);
    assert_eq!(out, [0xEE; 1_464]);
}

#[test]
fn cutter_20_22_24_23_in_that_order() {
    let track = [0; 25];
    let mut out = [0xEE; 40];
    let mut number = |header: Header, track: &[u8], k: u64, room: usize| {
        number_of(&cut(&header, track, k, &mut out[..room]))
    };
    assert_eq!(number(Header { channels: 9, ..A_HEADER }, &track, 1, 0), 20);
    assert_eq!(number(Header { channels: 8, frames: 90, ..A_HEADER }, &track, 1, 0), 20);
    assert_eq!(number(Header { frames: 0, ..A_HEADER }, &track, 1, 0), 20);
    assert_eq!(number(A_HEADER, &track, 1, 0), 22);
    assert_eq!(number(A_HEADER, &track[..24], 1, 0), 24);
    assert_eq!(number(A_HEADER, &[], 0, 0), 24);
    assert_eq!(number(A_HEADER, &track[..24], 0, 31), 23);
    assert_eq!(number(A_HEADER, &track[..24], 0, 32), 0);
    assert_eq!(out[32..], [0xEE; 8]);
}

#[test]
fn exactly_2_to_the_31_packets_are_allowed() {
    assert_eq!(numbered(1 << 31, 1, (1 << 31) - 1), Ok((1 << 31) - 1));
    assert_eq!(numbered(1 << 31, 1, 1 << 31), Err(Refusal::Number));
    assert_eq!(numbered((1 << 31) + 1, 1, 0), Err(Refusal::Number));
    assert_eq!(numbered((1 << 31) + 1, 2, 1 << 30), Ok(1 << 30));
}

#[test]
fn the_largest_n_of_many_channels() {
    assert_eq!((largest(3, 256), largest(0, 9), largest(1, 256)), (Ok(1), Ok(159), Ok(2)));
    assert_eq!(largest(4, 1), Err(Refusal::Form));
    assert_eq!((largest(0, 0), largest(0, 257)), (Err(Refusal::Form), Err(Refusal::Form)));
}

#[test]
fn converting_20_then_26() {
    assert_eq!(convert(4, 0, 1_000), Err(Refusal::Form));
    assert_eq!(convert(0, 4, 1_000), Err(Refusal::Form));
    assert_eq!(convert(0, 0, 256), Err(Refusal::Sample));
    assert_eq!(convert(1, 2, -32_769), Err(Refusal::Sample));
    assert_eq!(convert(0, 3, i64::MIN), Err(Refusal::Sample));
    assert_eq!(convert(3, 3, -2_147_483_648), Ok(-2_147_483_648));
}

#[test]
fn minus_one_at_fewer_bits_is_0() {
    assert_eq!((convert(2, 1, -1), convert(3, 2, -1), convert(2, 0, -1)), (Ok(0), Ok(0), Ok(128)));
}

#[test]
fn widen_then_narrow_returns_the_sample() {
    for byte in 0..=255 {
        let wide = convert(0, 2, byte).expect("a byte");
        assert_eq!(convert(2, 0, wide), Ok(byte));
    }
    for sample in -32_768..=32_767 {
        let wide = convert(1, 3, sample).expect("a 16-bit number");
        assert_eq!(convert(3, 1, wide), Ok(sample));
    }
}

#[test]
fn writing_what_was_read_gives_the_same_bytes() {
    let garbage = a_but(20, 0x99);
    let heard = read(&garbage).expect("bytes after the name don't count");
    let mut out = [0; 32];
    assert_eq!(write(&heard.header, &garbage[28..], &mut out), Ok(32));
    assert_eq!(out, A);
}
