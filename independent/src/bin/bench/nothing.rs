//! A side that does nothing: what a run has beside its call.

use independent::calls::Gateway;

pub struct Nothing;

impl Gateway for Nothing {
    fn name(&self) -> &'static str {
        "nothing"
    }

    fn read(&self, _: &[u8], _: usize) -> u64 {
        0
    }

    fn add(&self, _: &mut [u8], _: &[u8]) -> u64 {
        0
    }

    fn mine(&self, _: &[u8], _: &mut [u8], _: &mut [u8]) -> u64 {
        0
    }

    fn check(&self, _: &[u8]) -> u64 {
        0
    }

    fn judge(&self, _: &[u8], _: &[u8], _: &mut [u64]) -> u64 {
        0
    }
}
