//! The library's calls that the example makes, declared by hand as include/txp.h has them, and safe functions over them.
//! A Rust slice has what the header asks: a pointer that is not null, aligned, and apart from every other slice that is lent.

/// What a call answers.
#[repr(C)]
#[derive(Clone, Copy, Default, Debug, PartialEq, Eq)]
pub struct Answer {
    pub refusal: u32,
    pub place: u32,
    pub n: u32,
    pub l: u32,
    pub planes: u32,
    pub declared: u32,
    pub bits: u32,
    pub bytes: u32,
    pub finished: u32,
    pub error: u32,
    pub parts: u32,
    pub splits: u32,
    pub found: u32,
    pub negative: u32,
    pub value: u32,
    pub ending: u32,
}

impl Answer {
    /// Why the bits ended, or that they go on.
    pub fn ending_text(&self) -> &'static str {
        ["bits go on", "whole", "budget", "cut"].get(self.ending as usize).unwrap_or(&"unknown ending")
    }
}

/// The number for no, and the place reported with it.
#[derive(Clone, Copy, Debug, PartialEq, Eq)]
pub struct Refusal {
    pub number: u32,
    pub place: u32,
}

pub const HEADER_SIZE: usize = 12;

/// What to lend for an array of side 2^n: numbers of entries.
pub const fn entries(n: u32) -> usize {
    1 << (2 * n)
}

pub const fn desc(n: u32) -> usize {
    entries(n) / 4
}

pub const fn grand(n: u32) -> usize {
    entries(n) / 16
}

/// The bytes that hold any file of this n.
pub const fn most_file(n: u32) -> usize {
    HEADER_SIZE + (25 * entries(n) + desc(n) + grand(n) + 7) / 8
}

mod c {
    use super::Answer;

    extern "C" {
        pub fn txp_encode(
            n: u32,
            l: u32,
            coefs: *const i32,
            coefs_len: usize,
            desc: *mut u32,
            desc_len: usize,
            grand: *mut u32,
            grand_len: usize,
            marks: *mut u8,
            marks_len: usize,
            out: *mut u8,
            out_len: usize,
            budget: u32,
            answer: *mut Answer,
        ) -> u32;
        pub fn txp_decode(
            file: *const u8,
            file_len: usize,
            values: *mut i32,
            values_len: usize,
            precisions: *mut u8,
            precisions_len: usize,
            marks: *mut u8,
            marks_len: usize,
            answer: *mut Answer,
        ) -> u32;
        pub fn txp_decode_midpoint(
            file: *const u8,
            file_len: usize,
            values: *mut i32,
            values_len: usize,
            precisions: *mut u8,
            precisions_len: usize,
            marks: *mut u8,
            marks_len: usize,
            answer: *mut Answer,
        ) -> u32;
        pub fn txp_header(file: *const u8, file_len: usize, answer: *mut Answer) -> u32;
        pub fn txp_to_linear(n: u32, from: *const i32, from_len: usize, to: *mut i32, to_len: usize, answer: *mut Answer) -> u32;
        pub fn txp_to_raster(n: u32, from: *const i32, from_len: usize, to: *mut i32, to_len: usize, answer: *mut Answer) -> u32;
        pub fn txp_float(x: i32, to: *mut f32, answer: *mut Answer) -> u32;
    }
}

/// Makes a call on an answer, and reads the answer.
fn answer(call: impl FnOnce(&mut Answer) -> u32) -> Result<Answer, Refusal> {
    let mut answer = Answer::default();
    match call(&mut answer) {
        0 => Ok(answer),
        number => Err(Refusal { number, place: answer.place }),
    }
}

/// Writes the file of a linear array, with at most `budget` bits in its body.
pub fn encode(n: u32, l: u32, coefs: &[i32], desc: &mut [u32], grand: &mut [u32], marks: &mut [u8], out: &mut [u8], budget: u32) -> Result<Answer, Refusal> {
    answer(|a| unsafe {
        c::txp_encode(
            n,
            l,
            coefs.as_ptr(),
            coefs.len(),
            desc.as_mut_ptr(),
            desc.len(),
            grand.as_mut_ptr(),
            grand.len(),
            marks.as_mut_ptr(),
            marks.len(),
            out.as_mut_ptr(),
            out.len(),
            budget,
            a,
        )
    })
}

/// What the header of a file says: n, l, planes and declared bits.
pub fn header(file: &[u8]) -> Result<Answer, Refusal> {
    answer(|a| unsafe { c::txp_header(file.as_ptr(), file.len(), a) })
}

/// How the value of a coefficient is made of its known bits: they stand for themselves, or for the middle of what they leave open.
#[derive(Clone, Copy, Debug, PartialEq, Eq)]
pub enum Rule {
    Lower,
    Midpoint,
}

/// Reads a file, whole or cut, values by a rule.
pub fn decode(file: &[u8], values: &mut [i32], precisions: &mut [u8], marks: &mut [u8], rule: Rule) -> Result<Answer, Refusal> {
    let call = match rule {
        Rule::Lower => c::txp_decode,
        Rule::Midpoint => c::txp_decode_midpoint,
    };
    answer(|a| unsafe {
        call(
            file.as_ptr(),
            file.len(),
            values.as_mut_ptr(),
            values.len(),
            precisions.as_mut_ptr(),
            precisions.len(),
            marks.as_mut_ptr(),
            marks.len(),
            a,
        )
    })
}

/// A whole raster array in linear order, and back.
pub fn to_linear(n: u32, from: &[i32], to: &mut [i32]) -> Result<(), Refusal> {
    answer(|a| unsafe { c::txp_to_linear(n, from.as_ptr(), from.len(), to.as_mut_ptr(), to.len(), a) }).map(|_| ())
}

pub fn to_raster(n: u32, from: &[i32], to: &mut [i32]) -> Result<(), Refusal> {
    answer(|a| unsafe { c::txp_to_raster(n, from.as_ptr(), from.len(), to.as_mut_ptr(), to.len(), a) }).map(|_| ())
}

/// A coefficient as a float, which is exactly that whole number.
pub fn float(x: i32) -> Result<f32, Refusal> {
    let mut to = 0.0;
    answer(|a| unsafe { c::txp_float(x, &mut to, a) }).map(|_| to)
}
