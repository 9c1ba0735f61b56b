//! Document 01, "Bench table": every row marked P, one test each.

mod common;

use common::*;
use reference::convert::convert;
use reference::cut::largest;
use reference::header::rate_of;
use reference::read::read;
use reference::take::{distance, follow, newer};
use reference::write::write;
use reference::Refusal;

#[test]
fn p1_short_and_foreign() {
    assert_eq!(read(&[0; 27]), Err(Refusal::Short));
    assert_eq!(read(&[0; 28]), Err(Refusal::Foreign));
    assert_eq!((Refusal::Short.number(), Refusal::Foreign.number()), (1, 3));
}

#[test]
fn p2_largest_of_16_bits() {
    assert_eq!((largest(1, 8), largest(1, 2)), (Ok(89), Ok(256)));
}

#[test]
fn p3_largest_of_24_and_32_bits() {
    assert_eq!((largest(2, 2), largest(3, 8)), (Ok(239), Ok(44)));
}

#[test]
fn p4_ties_to_even() {
    let narrowed = [128, 384, -128, -384].map(|slot| convert(2, 1, slot));
    assert_eq!(narrowed, [Ok(0), Ok(2), Ok(0), Ok(-2)]);
}

#[test]
fn p5_ends_of_24_to_16() {
    assert_eq!(convert(2, 1, 8_388_607), Ok(32_767));
    assert_eq!(convert(2, 1, -8_388_608), Ok(-32_768));
}

#[test]
fn p6_top_of_32_to_24() {
    assert_eq!(convert(3, 2, 2_147_483_520), Ok(8_388_607));
}

#[test]
fn p7_bytes_widened() {
    let widened = [0, 128, 255].map(|byte| convert(0, 2, byte));
    assert_eq!(widened, [Ok(-8_388_608), Ok(0), Ok(8_323_072)]);
}

#[test]
fn p8_the_wrap() {
    assert_eq!(distance(4_294_967_295, 0), 1);
    assert!(newer(distance(4_294_967_295, 0)));
}

#[test]
fn p9_half_the_range() {
    assert!(newer(distance(5, 2_147_483_652)));
    assert!(!newer(distance(5, 2_147_483_653)));
}

#[test]
fn p10_the_same_counter() {
    assert!(!newer(distance(5, 5)));
}

#[test]
fn p11_rates() {
    assert_eq!(rate_of(20), Ok(705_600));
    assert_eq!(rate_of(21), Err(Refusal::Rate));
    assert_eq!(read(&a_but(4, 21)), Err(Refusal::Rate));
}

#[test]
fn p12_packet_a() {
    let mut out = [0; 32];
    assert_eq!(write(&A_HEADER, &[1, 0, 0xFE, 0xFF], &mut out), Ok(32));
    assert_eq!(out, A);
    let heard = read(&A).expect("packet A is accepted");
    assert_eq!((heard.header, heard.data_bytes), (A_HEADER, 4));
}

#[test]
fn p13_its_record() {
    let (mut take, mut track, mut tally) = opened(1);
    follow(&mut take, &mut track, &mut tally, DESK, &A).expect("packet A is accepted");
    assert_eq!(track, A_RECORD);
}
