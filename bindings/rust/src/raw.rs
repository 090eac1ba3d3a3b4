//! The functions of libcapi.a. A record of 20 bytes comes back through a pointer passed first, one of 8 or 16 by value, and a slice passes as its first
//! element and its length: this is x86-64's calling convention, and the archives for other processors follow it.

use crate::Page;

#[repr(C)]
#[derive(Default)]
pub(crate) struct Answer {
    pub number: u32,
    pub zeros: i32,
    pub longest_sum: u32,
    pub rungs: u32,
    pub backward: u32,
}

#[repr(C)]
pub(crate) struct LogGamma {
    pub value: f64,
    pub number: u32,
}

#[repr(C)]
pub(crate) struct Sweep {
    pub number: u32,
    pub needed: u32,
}

pub(crate) type Bessel = unsafe extern "C" fn(*mut Answer, u8, f64, f64, f64, *mut f64, usize) -> *mut Answer;

extern "C" {
    pub(crate) fn lichenoar_k(answer: *mut Answer, scaled: u8, v: f64, re: f64, im: f64, out: *mut f64, length: usize) -> *mut Answer;
    pub(crate) fn lichenoar_i(answer: *mut Answer, scaled: u8, v: f64, re: f64, im: f64, out: *mut f64, length: usize) -> *mut Answer;
    pub(crate) fn lichenoar_log_gamma(x: f64) -> LogGamma;
    pub(crate) fn lichenoar_sweep(
        kind: u8,
        scaling: u8,
        n: u32,
        v: f64,
        first_re: f64,
        first_im: f64,
        last_re: f64,
        last_im: f64,
        steps: u32,
        out: *mut u8,
        length: usize,
    ) -> Sweep;
    pub(crate) fn lichenoar_page_line(page: *mut Page, line: *const u8, length: usize) -> u32;
    pub(crate) fn lichenoar_page_join(into: *mut Page, from: *const Page) -> u32;
    pub(crate) fn lichenoar_sqrt(x: f64) -> f64;
    pub(crate) fn lichenoar_hypot(x: f64, y: f64) -> f64;
    pub(crate) fn lichenoar_exp(x: f64) -> f64;
    pub(crate) fn lichenoar_ln(x: f64) -> f64;
    pub(crate) fn lichenoar_sin(x: f64) -> f64;
    pub(crate) fn lichenoar_cos(x: f64) -> f64;
    pub(crate) fn lichenoar_angle(y: f64, x: f64) -> f64;
    pub(crate) fn lichenoar_sinh(x: f64) -> f64;
    pub(crate) fn lichenoar_cosh(x: f64) -> f64;
    pub(crate) fn lichenoar_sin_pi(x: f64) -> f64;
    pub(crate) fn lichenoar_cos_pi(x: f64) -> f64;
    pub(crate) fn lichenoar_round(x: f64) -> f64;
}

// The sizes and the places of the fields, as the archive has them.
const _: () = {
    use core::mem::{align_of, offset_of, size_of};
    assert!(size_of::<Answer>() == 20 && align_of::<Answer>() == 4);
    assert!(offset_of!(Answer, number) == 0 && offset_of!(Answer, zeros) == 4 && offset_of!(Answer, longest_sum) == 8);
    assert!(offset_of!(Answer, rungs) == 12 && offset_of!(Answer, backward) == 16);
    assert!(size_of::<LogGamma>() == 16 && align_of::<LogGamma>() == 8);
    assert!(offset_of!(LogGamma, value) == 0 && offset_of!(LogGamma, number) == 8);
    assert!(size_of::<Sweep>() == 8 && align_of::<Sweep>() == 4);
    assert!(offset_of!(Sweep, number) == 0 && offset_of!(Sweep, needed) == 4);
    assert!(size_of::<Page>() == 464 && align_of::<Page>() == align_of::<u64>());
    assert!(offset_of!(Page, numbers) == 0 && offset_of!(Page, reserved) == 256 && offset_of!(Page, longest) == 264 && offset_of!(Page, rungs) == 424);
    assert!(offset_of!(Page, backward) == 432 && offset_of!(Page, zeros) == 440 && offset_of!(Page, lines) == 448 && offset_of!(Page, unreadable) == 456);
    assert!(size_of::<crate::Complex>() == 16 && align_of::<crate::Complex>() == align_of::<f64>());
    assert!(offset_of!(crate::Complex, re) == 0 && offset_of!(crate::Complex, im) == 8);
};

#[cfg(test)]
mod tests {
    use super::*;

    const GUARD: u64 = 0x0123_4567_89AB_CDEF;
    const FIXED: u64 = 0x7FF8_0000_0000_0000;
    const FUNCTIONS: [Bessel; 2] = [lichenoar_k, lichenoar_i];

    /// A call on cells full of rubbish with a guard on each side; the record and the lent cells.
    fn guarded(function: Bessel, scaled: u8, v: f64, re: f64, im: f64, cells: &mut [f64]) -> Answer {
        let last = cells.len() - 1;
        cells.fill(f64::from_bits(0x7FF0_0000_0000_0001));
        cells[0] = f64::from_bits(GUARD);
        cells[last] = f64::from_bits(GUARD);
        // every field holds another value before the call
        let mut answer = Answer { number: 77, zeros: 77, longest_sum: 77, rungs: 77, backward: 77 };
        let place: *mut Answer = &mut answer;
        let returned = unsafe { function(place, scaled, v, re, im, cells.as_mut_ptr().add(1), last - 1) };
        assert_eq!(returned, place);
        assert_eq!(cells[0].to_bits(), GUARD);
        assert_eq!(cells[last].to_bits(), GUARD);
        answer
    }

    fn fields(a: &Answer) -> (u32, i32, u32, u32, u32) {
        (a.number, a.zeros, a.longest_sum, a.rungs, a.backward)
    }

    #[test]
    fn lengths_that_are_refused_fill_every_cell_and_no_other() {
        let mut room = [0.0; 2051];
        for function in FUNCTIONS {
            for length in [0, 1, 3, 5, 7, 511, 1023, 1025, 1026, 1027, 1028, 2048, 2049] {
                let cells = &mut room[..length + 2];
                assert_eq!(fields(&guarded(function, 0, 0.0, 1.0, 0.0, cells)), (1, 0, 0, 0, 0));
                assert!(cells[1..=length].iter().all(|x| x.to_bits() == FIXED), "length {length}");
            }
        }
    }

    #[test]
    fn every_length_that_is_taken_is_written_to_its_end() {
        let mut room = [0.0; 1026];
        for (function, re) in FUNCTIONS.into_iter().zip([300.0, 1.0]) {
            for n in 1..=512 {
                let cells = &mut room[..2 * n + 2];
                assert_eq!(guarded(function, 1, 0.0, re, 0.5, cells).number, 0);
                assert!(cells[1..=2 * n].iter().all(|x| x.is_finite()), "n {n}");
            }
        }
    }

    #[test]
    fn each_field_of_the_record_is_where_it_is_declared() {
        let value = f64::from_bits;
        let mut room = [0.0; 102];
        // a negative count
        let a = guarded(lichenoar_i, 1, value(0x4072_9C5E_15A0_1B31), value(0x403E_2A75_B881_2B83), value(0xC035_EF2D_038D_1EF8), &mut room);
        assert_eq!(fields(&a), (0, -1, 18, 0, 0));
        // rungs and a sum
        assert_eq!(fields(&guarded(lichenoar_i, 1, 0.75, 3.0, -4.0, &mut room[..22])), (0, 0, 14, 8, 0));
        // zeros, rungs and backward steps
        assert_eq!(fields(&guarded(lichenoar_k, 0, 0.0, 700.0, 3.0, &mut room[..42])), (0, 20, 0, 18, 6));
        // a refusal
        assert_eq!(fields(&guarded(lichenoar_k, 0, 1.0, 800.0, 0.0, &mut room[..6])), (7, 0, 0, 0, 0));
    }

    #[test]
    fn any_scaling_but_0_is_scaled() {
        let mut room = [0.0; 4];
        guarded(lichenoar_k, 1, 0.0, 3.0, 0.0, &mut room);
        let scaled = room[1].to_bits();
        for byte in 2..=255 {
            guarded(lichenoar_k, byte, 0.0, 3.0, 0.0, &mut room);
            assert_eq!(room[1].to_bits(), scaled);
        }
        guarded(lichenoar_k, 0, 0.0, 3.0, 0.0, &mut room);
        assert_ne!(room[1].to_bits(), scaled);
    }

    #[test]
    fn log_gamma_returns_value_and_number() {
        let answered = unsafe { lichenoar_log_gamma(0.5) };
        assert_eq!((answered.value.to_bits(), answered.number), (0x3FE2_50D0_48E7_A1B8, 0));
        let refused = unsafe { lichenoar_log_gamma(0.0) };
        assert_eq!((refused.value.to_bits(), refused.number), (FIXED, 10));
    }

    /// A sweep of two steps from 1 to 2 into bytes full of rubbish with a guard on each side: the number, what is needed, and how many bytes were changed.
    fn swept(kind: u8, scaling: u8, n: u32, length: usize) -> (u32, u32, usize) {
        let rubbish = |at: usize| 128 | at as u8;
        let mut room: [u8; 200] = core::array::from_fn(rubbish);
        let record = unsafe { lichenoar_sweep(kind, scaling, n, 0.0, 1.0, 0.0, 2.0, 0.0, 2, room.as_mut_ptr().add(40), length) };
        let changed = |&at: &usize| room[at] != rubbish(at);
        let written = (0..200).filter(changed).count();
        // they are the first of those that were lent, and no other
        assert_eq!((40..40 + written).filter(changed).count(), written);
        (record.number, record.needed, written)
    }

    #[test]
    fn a_sweep_of_any_kind_and_scaling() {
        // no function of the crate gets 9: these bytes are types there
        for byte in 0..=255 {
            assert_eq!(swept(byte, 0, 1, 114), if byte == 1 || byte == 2 { (0, 114, 114) } else { (9, 0, 0) }, "kind {byte}");
            assert_eq!(swept(1, byte, 1, 114), if byte < 2 { (0, 114, 114) } else { (9, 0, 0) }, "scaling {byte}");
        }
        // 13 is looked at before 9, and 9 before 1
        let record = unsafe { lichenoar_sweep(0, 2, 0, 0.0, 1.0, 0.0, 2.0, 0.0, 0, core::ptr::null_mut(), 0) };
        assert_eq!((record.number, record.needed), (13, 0));
        assert_eq!(swept(0, 0, 0, 114), (9, 0, 0));
        assert_eq!(swept(1, 0, 0, 114), (1, 0, 0));
    }

    #[test]
    fn a_sweep_writes_all_of_its_bytes_or_none() {
        for length in 0..=160 {
            assert_eq!(swept(2, 1, 512, length), (0, 114, if length < 114 { 0 } else { 114 }), "length {length}");
        }
        let record = unsafe { lichenoar_sweep(1, 0, 1, 0.0, 1.0, 0.0, 2.0, 0.0, 4096, core::ptr::null_mut(), 0) };
        assert_eq!((record.number, record.needed), (0, 233_472));
    }

    /// The cells of a page, in their order: 32 numbers, one in reserve, 20 longest sums, rungs, backward steps, zeros, lines, unreadable.
    type Cells = [u64; 58];
    const LINES: usize = 56;
    const MOST: u64 = Page::MOST_LINES;

    fn page(cells: Cells) -> Page {
        // Safety: a page is 58 cells one after the other, of any bits.
        unsafe { core::mem::transmute(cells) }
    }

    /// The line counted into a page of these cells, with a guard on each side: the number, and the cells then.
    fn counted(cells: Cells, line: &[u8]) -> (u32, Cells) {
        let mut room = [[GUARD; 58], cells, [GUARD; 58]];
        let number = unsafe { lichenoar_page_line(room[1].as_mut_ptr().cast(), line.as_ptr(), line.len()) };
        assert_eq!((room[0], room[2]), ([GUARD; 58], [GUARD; 58]));
        (number, room[1])
    }

    /// Pages of these cells joined, with a guard on each side of both: the number, and the cells of the first then. The second's stay.
    fn joined(into: Cells, from: Cells) -> (u32, Cells) {
        let mut room = [[GUARD; 58], into, [GUARD; 58], from, [GUARD; 58]];
        let (before, behind) = room.split_at_mut(3);
        let number = unsafe { lichenoar_page_join(before[1].as_mut_ptr().cast(), behind[0].as_ptr().cast()) };
        assert_eq!((room[0], room[2], room[3], room[4]), ([GUARD; 58], [GUARD; 58], from, [GUARD; 58]));
        (number, room[1])
    }

    /// The cells with these added, each up to the largest u64.
    fn plus(mut cells: Cells, more: &[(usize, u64)]) -> Cells {
        more.iter().for_each(|&(at, by)| cells[at] = cells[at].saturating_add(by));
        cells
    }

    /// An answer of one order: -3 zeros, a sum of 19 terms, 1,509 rungs, 256 backward steps. A refusal by 15, whose counts are in no total. No answer line.
    const LINE: [&[u8]; 3] = [b"00FFFD001305E501003FF00000000000000000000000000000", b"0FFFFF0013FFFFFFFF", b"0FFFFF0013FFFFFFF"];
    const ADDED: [&[(usize, u64)]; 3] = [&[(0, 1), (33 + 19, 1), (53, 1509), (54, 256), (55, 3), (LINES, 1)], &[(15, 1), (LINES, 1)], &[(LINES, 1), (57, 1)]];

    #[test]
    fn each_cell_of_a_page_is_where_it_is_declared() {
        for (line, added) in LINE.into_iter().zip(ADDED) {
            assert_eq!(counted([0; 58], line), (0, plus([0; 58], added)));
        }
        let mut got = Page::new();
        LINE.iter().for_each(|line| got.line(line).unwrap());
        assert_eq!(got, page(ADDED.into_iter().fold([0; 58], plus)));
        assert_eq!((got.answered(), got.refused(15), got.longest(19), got.rungs(), got.backward(), got.zeros()), (1, 1, 1, 1509, 256, 3));
        assert_eq!((got.read(), got.unreadable(), got.lines()), (2, 1, 3));
        // an empty line may be at no place
        let mut cells = [0; 58];
        assert_eq!(unsafe { lichenoar_page_line(cells.as_mut_ptr().cast(), core::ptr::null(), 0) }, 0);
        assert_eq!(cells, plus([0; 58], ADDED[2]));
    }

    // what the cell of the lines may be
    const HELD: [u64; 9] = [0, 1, MOST - 1, MOST, MOST + 1, 1 << 63, u64::MAX - MOST + 1, u64::MAX - 1, u64::MAX];

    #[test]
    fn a_page_that_is_not_ours() {
        // cells near the end of their range, the lines any number
        for below in [0, 1, 2, 3, 255, 256, 257, 1508, 1509, 1510, u64::MAX] {
            for lines in HELD {
                let mut cells = [u64::MAX - below; 58];
                cells[LINES] = lines;
                for (line, added) in LINE.into_iter().zip(ADDED) {
                    let want = if lines >= MOST { (15, cells) } else { (0, plus(cells, added)) };
                    assert_eq!(counted(cells, line), want, "{below} {lines}");
                }
                assert_eq!(page(cells).read(), if below == u64::MAX { 0 } else { u64::MAX });
            }
        }
    }

    #[test]
    fn pages_that_are_not_ours_joined() {
        let values = [(u64::MAX, u64::MAX), (1, u64::MAX), (u64::MAX, 0), (1 << 63, 1 << 63), (7, 8), (u64::MAX - 8, 8), (9, u64::MAX - 8)];
        for (lines, more) in HELD.into_iter().flat_map(|lines| HELD.map(|more| (lines, more))) {
            for (a, b) in values {
                let (mut into, mut from) = ([a; 58], [b; 58]);
                (into[LINES], from[LINES]) = (lines, more);
                let added: [(usize, u64); 58] = core::array::from_fn(|at| (at, from[at]));
                let full = u128::from(lines) + u128::from(more) > u128::from(MOST);
                assert_eq!(joined(into, from), if full { (15, into) } else { (0, plus(into, &added)) }, "{a} {b}, lines {lines} {more}");
            }
        }
        // each cell is added to its own
        let into: Cells = core::array::from_fn(|at| 100 * at as u64);
        let from: Cells = core::array::from_fn(|at| if at == LINES { 1 } else { 1 << at });
        assert_eq!(joined(into, from), (0, core::array::from_fn(|at| into[at] + from[at])));
    }
}
