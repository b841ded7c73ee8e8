//! A single call, made again and again on the same data base.

use std::hint::black_box;
use std::ops::Range;
use std::time::Instant;

use yarugota::{Call, Status};
use yarugota_model::BLOCK;

use crate::Side;

/// A call that gets so far: to the test that refuses it, or to its end. What
/// it takes more than one that stops earlier is the price of what lies between.
pub struct Stop<'a> {
    /// What it has paid for that the one before it has not.
    pub what: String,
    pub side: Side,
    pub call: Call<'a>,
    pub area: Vec<u8>,
    /// The data base that each call finds.
    pub base: Vec<u8>,
    /// The blocks that it stores into; they are put back after each call.
    pub stored: Vec<usize>,
    pub status: Status,
    /// How many calls make a round.
    pub calls: u32,
    pub best: Best,
}

/// Nanoseconds a call in the best round so far, and of putting blocks back in
/// the best one. Each has a best of its own: the least difference would be that
/// of the round whose putting back was disturbed.
pub struct Best {
    with_back: f64,
    back: f64,
}

impl Best {
    pub const NONE: Best = Best {
        with_back: f64::MAX,
        back: f64::MAX,
    };
}

impl Stop<'_> {
    /// The same by another side.
    pub fn by(self, side: Side) -> Self {
        Stop { side, ..self }
    }

    /// Nanoseconds a call, without putting blocks back.
    pub fn taken(&self) -> f64 {
        self.best.with_back - self.best.back
    }

    /// One round. Panics if the call does not stop where it should.
    pub fn round(&mut self, schema: &[u8]) {
        let mut area = self.area.clone();
        let mut base = self.base.clone();
        let (status, _) = (self.side)(&self.call, &mut area, schema, &mut base);
        assert_eq!(Status::numbered(status), Some(self.status), "{}", self.what);
        self.put_back(&mut base);
        let with_back = self.repeat(|| {
            black_box((self.side)(&self.call, &mut area, schema, &mut base));
            self.put_back(&mut base);
        });
        let back = self.repeat(|| self.put_back(black_box(&mut base)));
        self.best.with_back = self.best.with_back.min(with_back);
        self.best.back = self.best.back.min(back);
    }

    fn repeat(&self, mut step: impl FnMut()) -> f64 {
        let began = Instant::now();
        for _ in 0..self.calls {
            step();
        }
        began.elapsed().as_nanos() as f64 / f64::from(self.calls)
    }

    fn put_back(&self, base: &mut [u8]) {
        for &block in &self.stored {
            base[bytes_of(block)].copy_from_slice(&self.base[bytes_of(block)]);
        }
    }
}

pub fn bytes_of(block: usize) -> Range<usize> {
    block * BLOCK..(block + 1) * BLOCK
}
