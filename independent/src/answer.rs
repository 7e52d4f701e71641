//! Answers of the calls: a value, or a refusal with its number and place.

/// A row of the table of refusals.
#[derive(Clone, Copy, Debug, PartialEq, Eq)]
pub struct Refusal {
    pub number: u8,
    pub place: usize,
}

pub type Answer<T> = Result<T, Refusal>;

pub fn refuse<T>(number: u8, place: usize) -> Answer<T> {
    Err(Refusal { number, place })
}

/// How an answer crosses the boundary: the refusal's number in bits 32 to 39, the value or the place below.
pub fn packed(answer: Answer<usize>) -> u64 {
    match answer {
        Ok(value) => value as u64,
        Err(refusal) => (refusal.number as u64) << 32 | refusal.place as u64,
    }
}

pub fn unpacked(answer: u64) -> Answer<usize> {
    let low = (answer & 0xffff_ffff) as usize;
    match (answer >> 32) as u8 {
        0 => Ok(low),
        number => refuse(number, low),
    }
}
