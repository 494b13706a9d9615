//! Build, of records in mode 1 without random bytes.
use crate::records::{app, setting, IV};
use compare::setting_out;
use husk::raw;
use reference::fast;
use std::hint::black_box;

/// What both ways build from, and where to.
pub struct Work {
    app: Vec<u8>,
    out: Vec<u8>,
    count: usize,
}

impl Work {
    /// `count` records of `len` bytes.
    pub fn new(len: usize, count: usize) -> Work {
        Work { app: app(1, len), out: vec![0; len], count }
    }

    /// The proved version, by value. Answers how many were built.
    pub fn ours(&mut self) -> usize {
        let mut state = raw::Sender::open(setting(1), IV).next;
        let mut built = 0;
        for _ in 0..self.count {
            let app = black_box(&self.app[..]);
            let answer = black_box(&state).build(app, &[], black_box(&mut self.out[..]));
            black_box(&answer);
            built += usize::from(answer.answer == 0);
            state = answer.next;
        }
        built
    }

    /// The quick reference, with its state changed in place.
    pub fn fast(&mut self) -> usize {
        let (_, mut state) = fast::Sender::open(setting_out(setting(1)), IV);
        let mut built = 0;
        for _ in 0..self.count {
            let app = black_box(&self.app[..]);
            let answer = black_box(&mut state).build(app, &[], black_box(&mut self.out[..]));
            black_box(&answer);
            built += usize::from(answer.answer == 0);
        }
        built
    }
}
