//! Document 01, "Numbers the bench sees": every refusal and its number.

/// Why a datagram or an argument was refused; an accepted one is `Ok` and has the number 0.
#[derive(Clone, Copy, Debug, PartialEq, Eq)]
#[repr(u8)]
pub enum Refusal {
    Short = 1,
    Long = 2,
    Foreign = 3,
    Name = 4,
    OtherStream = 5,
    SubProtocol = 6,
    Codec = 7,
    Reserved = 8,
    Rate = 9,
    DataType = 10,
    Length = 11,
    Channels = 12,
    Shape = 13,
    Late = 14,
    Beyond = 15,
    State = 16,
    Form = 20,
    Big = 21,
    Data = 22,
    Room = 23,
    Number = 24,
    Sample = 26,
}

impl Refusal {
    pub fn number(self) -> u8 {
        self as u8
    }
}

/// The paper's number of an answer: 0 where it was accepted.
pub fn number_of<T>(answer: &Result<T, Refusal>) -> u8 {
    answer.as_ref().err().map_or(0, |refusal| refusal.number())
}

/// Refuses unless the rule holds, so that a list of checks reads in the paper's order.
pub fn check(holds: bool, refusal: Refusal) -> Result<(), Refusal> {
    if holds {
        Ok(())
    } else {
        Err(refusal)
    }
}
