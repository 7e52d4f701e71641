//! Sets of codes, one bit each.

pub type Codes = u32;

pub fn bit(code: u8) -> Codes {
    1 << (code & 31)
}

/// The codes of a set in ascending order.
pub fn each(set: Codes) -> impl Iterator<Item = u8> {
    let mut left = set;
    std::iter::from_fn(move || {
        let code = left.trailing_zeros() as u8;
        left &= left.wrapping_sub(1);
        (code < 32).then_some(code)
    })
}
