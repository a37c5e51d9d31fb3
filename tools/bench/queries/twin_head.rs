// The types that the loops need, in Rust: `queries.py` puts them in front of the loops of
// `clearance` and `pbm`.
#![allow(dead_code, unused_mut, unused_variables)]
use std::time::Instant;

#[derive(Clone, Copy, Debug, PartialEq, Eq)]
pub struct Cell { pub x: u16, pub y: u16 }
#[derive(Clone, Copy, Debug, PartialEq, Eq)]
pub struct Spot { pub x: i16, pub y: i16 }
#[derive(Clone, Copy, Debug, PartialEq, Eq)]
pub struct Near { pub dist: u32, pub cell: Spot }
#[derive(Clone, Copy, Debug, PartialEq, Eq)]
pub struct Rect { pub x0: u16, pub y0: u16, pub x1: u16, pub y1: u16 }
#[derive(Clone, Copy, Debug, PartialEq, Eq)]
pub enum Refusal { OutOfRange, BadPath, Crooked { index: u32 } }
pub enum PbmFault { Truncated }
#[derive(Clone, Copy)]
pub struct Global;
pub trait Metric { fn of(dx: u16, g: u16) -> u32; }
pub struct Euclid2;
impl Metric for Euclid2 {
    #[inline(always)]
    fn of(dx: u16, g: u16) -> u32 { let (c, r) = (u32::from(dx), u32::from(g)); c * c + r * r }
}
pub struct Bitmap { width: u16, height: u16, words: Vec<u64>, bands: u64, marks: Vec<u64> }
impl Bitmap {
    pub fn width(&self) -> u16 { self.width }
    pub fn height(&self) -> u16 { self.height }
    #[inline(always)]
    pub fn bands(&self) -> u64 { self.bands }
    #[inline(always)]
    pub fn marked_tiles(&self, band: u16) -> u64 { self.marks[usize::from(band)] }
    fn across(&self) -> usize { usize::from(self.width).div_ceil(64) }
    pub fn row_words(&self, y: u16) -> &[u64] {
        let across = self.across();
        let start = usize::from(y) * across;
        &self.words[start..start + across]
    }
    pub fn set_row(&mut self, y: u16, row: &[u64; 64]) {
        let last = usize::from((self.width - 1) / 64);
        let start = usize::from(y) * (last + 1);
        for index in 0..last {
            self.words[start + index] = row[index];
        }
        let count = self.width - 64 * last as u16;
        self.words[start + last] = if count < 64 { row[last] & ((1 << count) - 1) } else { row[last] };
        self.mark(y, row);
    }
    fn mark(&mut self, y: u16, row: &[u64; 64]) {
        let bit = 1 << (y / 64);
        if self.bands & bit == 0 && row.iter().fold(0, |all, word| all | word) != 0 {
            self.bands |= bit;
        }
        for index in 0..self.across() {
            if row[index] != 0 {
                self.marks[usize::from(y / 64)] |= 1 << index;
            }
        }
    }
}
macro_rules! prove { ($e:expr) => {}; }
