//! A thin safe wrapper around libscorvemaglio.a: what include/scorvemaglio.h says holds here. Each call returns `Err`
//! with the refusal's number where the C function returns it. Rust's borrows keep what the header leaves to the caller:
//! pointers are valid and aligned, and a place that is written overlaps no other.
//! Build a program that has `mod scorvemaglio;` with `rustc --edition 2021 -L FOLDER program.rs`, the archive being in
//! FOLDER.
#![allow(dead_code)] // a program uses what it needs

// The numbers of the header, under its names. `.ci/test-rust-header` compares all that is declared here with it.
pub const VERSION: u32 = 5;
pub const MAX_WIDTH: usize = 32;
pub const MAX_COUNT: u32 = 1000;
pub const MAX_SAMPLES: usize = 2048;
pub const LONGEST_RECORDING: usize = 41004;
pub const LONGEST_LISTING: usize = 50111;

/// What a refused call gives as its `Err`; `OK` is none.
pub const OK: u32 = 0;
pub const BAD_COUNT: u32 = 1;
pub const BAD_WIDTH: u32 = 2;
pub const TOO_LONG: u32 = 3;
pub const BAD_LENGTH: u32 = 4;
pub const BAD_WORD: u32 = 5;
pub const BAD_SAMPLE: u32 = 6;
pub const BAD_STATE: u32 = 7;
pub const BAD_TIMES: u32 = 9;
pub const COUNT_TOO_BIG: u32 = 10;
pub const BAD_READING: u32 = 11;
pub const NO_RECORDING: u32 = 12;
pub const BUFFER_TOO_SHORT: u32 = 100;

/// The mark of an answer. `AGREED` is the same number as `CONFIRMED`.
pub const CONFIRMED: u32 = 0;
pub const AGREED: u32 = 0;
pub const HELD: u32 = 1;
pub const ALARM: u32 = 2;

/// Which unit still shows the last agreed word: a place in the pair that was voted on.
pub const UNITS_AGREE: u32 = 0;
pub const FIRST: u32 = 1;
pub const SECOND: u32 = 2;
pub const NEITHER: u32 = 3;

/// The phase of a reserve vote.
pub const PRIMARY: u32 = 0;
pub const TAKING_OVER: u32 = 1;
pub const RESERVE: u32 = 2;

// A struct of the header: its fields in the header's order, laid out as in C.
macro_rules! c_struct {
    ($name:ident { $($field:ident: $kind:ty),* }) => {
        #[repr(C)]
        #[derive(Clone, Copy, Debug, Default, PartialEq)]
        pub struct $name { $(pub $field: $kind),* }
    };
}

c_struct!(Confirm { n: u32, need: u32, input: u32, output: u32, count: u32 });
c_struct!(ConfirmAnswer { word: u32, mark: u32 });
c_struct!(Vote { n: u32, need: u32, word: u32, count: u32 });
c_struct!(VoteAnswer { word: u32, mark: u32, which: u32 });
c_struct!(Tuple { votes: u32, n: u32, need: u32, input: u32, output: u32, count: u32, agreed: u32,
    counts: [u32; MAX_WIDTH] });
c_struct!(TupleAnswer { word: u32, mark: u32, mask: u32, second: u32 });
c_struct!(Reserve { phase: u32, n: u32, need: u32, word: u32, count: u32 });
c_struct!(ReserveAnswer { word: u32, mark: u32, pair: u32, which: u32 });
c_struct!(Sizing { count: u64, votes: u64, age: u64, quiet: u64 });
c_struct!(Readings { x1: f64, x2: f64, x3: f64, tolerance: f64 });
c_struct!(Header { units: u32, samples: u32, n: u32, need: u32, word: u32 });

// A reference is passed as a pointer, a slice as a pointer and a length.
type In = *const u32;
type Out = *mut u32;
type Bytes = *mut u8;

#[link(name = "scorvemaglio", kind = "static")]
extern "C" {
    fn scorve_version() -> u32;
    fn scorve_abi_5();
    fn scorve_confirm_from_word(state: &mut Confirm, n: u32, need: u32, word: u32) -> u32;
    fn scorve_confirm_new(state: &mut Confirm, n: u32, need: u32) -> u32;
    fn scorve_confirm_step(state: &mut Confirm, input: u32, answer: &mut ConfirmAnswer) -> u32;
    fn scorve_confirm_run(n: u32, need: u32, word: u32, samples: In, samples_len: usize,
        words: Out, words_len: usize, marks: Bytes, marks_len: usize, counts: Out, counts_len: usize,
        sample: &mut u32) -> u32;
    fn scorve_vote_from_word(state: &mut Vote, n: u32, need: u32, word: u32) -> u32;
    fn scorve_vote_new(state: &mut Vote, n: u32, need: u32) -> u32;
    fn scorve_vote_step(state: &mut Vote, a: u32, b: u32, reset: u32, answer: &mut VoteAnswer) -> u32;
    fn scorve_vote_run(n: u32, need: u32, word: u32, a: In, a_len: usize, b: In, b_len: usize,
        words: Out, words_len: usize, marks: Bytes, marks_len: usize, which: Bytes, which_len: usize,
        sample: &mut u32) -> u32;
    fn scorve_tuple_from_word(state: &mut Tuple, n: u32, votes: u32, need: u32, word: u32) -> u32;
    fn scorve_tuple_new(state: &mut Tuple, n: u32, votes: u32, need: u32) -> u32;
    fn scorve_tuple_step(state: &mut Tuple, a: u32, b: u32, answer: &mut TupleAnswer) -> u32;
    fn scorve_tuple_run(n: u32, votes: u32, need: u32, word: u32, a: In, a_len: usize, b: In, b_len: usize,
        words: Out, words_len: usize, masks: Out, masks_len: usize, marks: Bytes, marks_len: usize,
        seconds: Out, seconds_len: usize, sample: &mut u32) -> u32;
    fn scorve_reserve_from_word(state: &mut Reserve, n: u32, need: u32, word: u32) -> u32;
    fn scorve_reserve_new(state: &mut Reserve, n: u32, need: u32) -> u32;
    fn scorve_reserve_step(state: &mut Reserve, a: u32, b: u32, c: u32, d: u32, answer: &mut ReserveAnswer) -> u32;
    fn scorve_reserve_run(n: u32, need: u32, word: u32, a: In, a_len: usize, b: In, b_len: usize,
        c: In, c_len: usize, d: In, d_len: usize,
        words: Out, words_len: usize, marks: Bytes, marks_len: usize, which: Bytes, which_len: usize,
        sample: &mut u32) -> u32;
    fn scorve_sizing_of(n: u32, least_gap: u32, greatest_gap: u32, delay: u32, sizing: &mut Sizing) -> u32;
    fn scorve_threshold_vote(readings: &Readings, agreed: &mut f64, mark: &mut u32) -> u32;
    fn scorve_recording_read(bytes: *const u8, bytes_len: usize, times: Out, times_len: usize, one: Out, one_len: usize,
        two: Out, two_len: usize, three: Out, three_len: usize, four: Out, four_len: usize,
        header: &mut Header, sample: &mut u32) -> u32;
    fn scorve_listing_list(bytes: *const u8, bytes_len: usize, out: *mut u8, out_len: usize, written: &mut usize,
        refused: &mut u32) -> u32;
}

// A program with this wrapper in it does not link with an archive of another version.
#[used]
static ABI: unsafe extern "C" fn() = scorve_abi_5;

/// The version of the archive.
pub fn version() -> u32 {
    unsafe { scorve_version() }
}

/// The value if the call was accepted, else the refusal's number.
fn accepted<T>(refusal: u32, value: T) -> Result<T, u32> {
    if refusal == 0 { Ok(value) } else { Err(refusal) }
}

// The two constructors, the same for each voter but for its counts. What they write over, `default()`, has zeros for n
// and the counts, so no step takes it; it is not the state of the default word.
macro_rules! constructors {
    ($voter:ident, $from_word:ident, $new:ident, [$($count:ident),*]) => {
        /// A fresh state from an initial word.
        pub fn from_word(n: u32, $($count: u32,)* word: u32) -> Result<$voter, u32> {
            let mut state = $voter::default();
            accepted(unsafe { $from_word(&mut state, n, $($count,)* word) }, state)
        }
        /// A fresh state from the default word, a one for each of the n signals.
        pub fn new(n: u32, $($count: u32),*) -> Result<$voter, u32> {
            let mut state = $voter::default();
            accepted(unsafe { $new(&mut state, n, $($count),*) }, state)
        }
    };
}

impl Confirm {
    constructors!(Confirm, scorve_confirm_from_word, scorve_confirm_new, [need]);
    /// One sample. A refused step leaves the state as it is; so do those of the other voters.
    pub fn step(&mut self, input: u32) -> Result<ConfirmAnswer, u32> {
        let mut answer = ConfirmAnswer::default();
        accepted(unsafe { scorve_confirm_step(self, input, &mut answer) }, answer)
    }
}

impl Vote {
    constructors!(Vote, scorve_vote_from_word, scorve_vote_new, [need]);
    pub fn step(&mut self, a: u32, b: u32, reset: bool) -> Result<VoteAnswer, u32> {
        let mut answer = VoteAnswer::default();
        accepted(unsafe { scorve_vote_step(self, a, b, reset as u32, &mut answer) }, answer)
    }
}

impl Tuple {
    constructors!(Tuple, scorve_tuple_from_word, scorve_tuple_new, [votes, need]);
    pub fn step(&mut self, a: u32, b: u32) -> Result<TupleAnswer, u32> {
        let mut answer = TupleAnswer::default();
        accepted(unsafe { scorve_tuple_step(self, a, b, &mut answer) }, answer)
    }
}

impl Reserve {
    constructors!(Reserve, scorve_reserve_from_word, scorve_reserve_new, [need]);
    pub fn step(&mut self, units: [u32; 4]) -> Result<ReserveAnswer, u32> {
        let mut answer = ReserveAnswer::default();
        let [a, b, c, d] = units;
        accepted(unsafe { scorve_reserve_step(self, a, b, c, d, &mut answer) }, answer)
    }
}

// A run, the same for each voter: its counts, what it reads, and what it writes.
macro_rules! run {
    ($name:ident, $call:ident, [$($count:ident),*], [$($unit:ident),*], [$($output:ident: $kind:ty),*]) => {
        /// A whole trace from a fresh state. `sample` is the number of the sample with refusal 6, else 0.
        pub fn $name(n: u32, $($count: u32,)* word: u32, $($unit: &[u32],)* $($output: &mut [$kind],)*
                     sample: &mut u32) -> Result<(), u32> {
            let refusal = unsafe {
                $call(n, $($count,)* word, $($unit.as_ptr(), $unit.len(),)*
                      $($output.as_mut_ptr(), $output.len(),)* sample)
            };
            accepted(refusal, ())
        }
    };
}

run!(confirm_run, scorve_confirm_run, [need], [samples], [words: u32, marks: u8, counts: u32]);
run!(vote_run, scorve_vote_run, [need], [a, b], [words: u32, marks: u8, which: u8]);
run!(tuple_run, scorve_tuple_run, [votes, need], [a, b], [words: u32, masks: u32, marks: u8, seconds: u32]);
run!(reserve_run, scorve_reserve_run, [need], [a, b, c, d], [words: u32, marks: u8, which: u8]);

/// Both counts, the age bound and the quiet gap, from times in microseconds.
pub fn sizing_of(n: u32, least_gap: u32, greatest_gap: u32, delay: u32) -> Result<Sizing, u32> {
    let mut sizing = Sizing::default();
    accepted(unsafe { scorve_sizing_of(n, least_gap, greatest_gap, delay, &mut sizing) }, sizing)
}

/// The median of three readings, or `None` with an alarm.
pub fn threshold_vote(readings: &Readings) -> Result<Option<f64>, u32> {
    let (mut agreed, mut mark) = (0.0, 0);
    let refusal = unsafe { scorve_threshold_vote(readings, &mut agreed, &mut mark) };
    accepted(refusal, if mark == AGREED { Some(agreed) } else { None })
}

/// Reads a recording into five slices of `MAX_SAMPLES` places: the times, then units 1 to 4.
pub fn recording_read(bytes: &[u8], slices: [&mut [u32]; 5], sample: &mut u32) -> Result<Header, u32> {
    let mut header = Header::default();
    let [times, one, two, three, four] = slices;
    let refusal = unsafe {
        scorve_recording_read(bytes.as_ptr(), bytes.len(), times.as_mut_ptr(), times.len(), one.as_mut_ptr(), one.len(),
                              two.as_mut_ptr(), two.len(), three.as_mut_ptr(), three.len(),
                              four.as_mut_ptr(), four.len(), &mut header, sample)
    };
    accepted(refusal, header)
}

/// Lists a recording into at least `LONGEST_LISTING` bytes: how many were written, and whether the text says that the
/// recording is refused.
pub fn listing_list(bytes: &[u8], out: &mut [u8]) -> Result<(usize, bool), u32> {
    let (mut written, mut refused) = (0, 0);
    let refusal = unsafe {
        scorve_listing_list(bytes.as_ptr(), bytes.len(), out.as_mut_ptr(), out.len(), &mut written, &mut refused)
    };
    accepted(refusal, (written, refused != 0))
}

// Each call is tried once: `rustc --test`.
#[cfg(test)]
mod tests {
    use super::*;

    #[test]
    fn confirmation() {
        let (mut words, mut marks, mut counts, mut sample) = ([9; 6], [9; 6], [9; 6], 9);
        let samples = [0, 1, 1, 3, 3, 3];
        assert_eq!(confirm_run(2, 2, 0, &samples, &mut words, &mut marks, &mut counts, &mut sample), Ok(()));
        assert_eq!((words, marks, counts, sample), ([0, 0, 0, 0, 0, 3], [1, 1, 1, 1, 1, 0], [1, 0, 1, 0, 1, 1], 0));
        assert_eq!(confirm_run(1, 2, 0, &samples, &mut words, &mut marks, &mut counts, &mut sample), Err(6));
        assert_eq!(sample, 3);
        assert_eq!(confirm_run(2, 2, 0, &[], &mut [], &mut [], &mut [], &mut sample), Ok(()));
        assert_eq!((Confirm::new(33, 2), Confirm::from_word(2, 2, 4)), (Err(2), Err(5)));
        assert_eq!(Confirm::new(2, 2), Confirm::from_word(2, 2, 3));
        assert_eq!(Confirm::new(32, 2), Confirm::from_word(32, 2, !0));
        let mut state = Confirm::from_word(2, 2, 1).unwrap();
        assert_eq!(state.step(2), Ok(ConfirmAnswer { word: 1, mark: HELD }));
        assert_eq!(state, Confirm { n: 2, need: 2, input: 2, output: 1, count: 0 });
    }

    #[test]
    fn votes() {
        let (mut words, mut masks, mut marks, mut sample) = ([9; 3], [9; 3], [9; 3], 9);
        let (mut which, mut seconds) = ([9; 3], [9; 3]);
        let (a, b) = ([2, 3, 3], [2, 1, 2]);
        assert_eq!(vote_run(2, 2, 0, &a, &b, &mut words, &mut marks, &mut which, &mut sample), Ok(()));
        assert_eq!((words, marks, which, sample), ([2, 2, 2], [0, 1, 2], [0, 3, 2], 0));
        let (a, b) = ([2, 1, 1], [2, 3, 3]);
        let run = tuple_run(2, 2, 3, 2, &a, &b, &mut words, &mut masks, &mut marks, &mut seconds, &mut sample);
        assert_eq!(run, Ok(()));
        assert_eq!((words, masks, marks, seconds, sample), ([2, 2, 2], [0, 0, 2], [1, 1, 2], [0, 2, 2], 0));
        assert_eq!((Vote::new(2, 0), Tuple::new(2, 0, 1), Tuple::new(2, 1, 0)), (Err(1), Err(1), Err(1)));
        assert_eq!((Vote::new(3, 2), Tuple::new(3, 2, 1)), (Vote::from_word(3, 2, 7), Tuple::from_word(3, 2, 1, 7)));
        let mut vote = Vote::from_word(3, 4, 6).unwrap();
        assert_eq!(vote.step(5, 7, false), Ok(VoteAnswer { word: 6, mark: HELD, which: NEITHER }));
        assert_eq!(vote, Vote { n: 3, need: 4, word: 6, count: 1 });
        assert_eq!(vote.step(5, 7, true).map(|_| vote.count), Ok(0));
        let (mut tuple, mut counts) = (Tuple::from_word(4, 2, 3, 6).unwrap(), [0; MAX_WIDTH]);
        assert_eq!(tuple.step(5, 7), Ok(TupleAnswer { word: 6, mark: HELD, mask: 0, second: 2 }));
        assert_eq!(tuple.step(8, 10), Ok(TupleAnswer { word: 6, mark: ALARM, mask: 2, second: 2 }));
        counts[1] = 1;
        assert_eq!(tuple, Tuple { votes: 2, n: 4, need: 3, input: 7, output: 6, count: 0, agreed: 10, counts });
    }

    #[test]
    fn reserve_vote() {
        let units = [[5, 5, 5, 5], [5, 7, 5, 4], [5, 7, 5, 4], [5, 7, 5, 4], [5, 7, 5, 4], [5, 7, 4, 4]];
        let (mut words, mut marks, mut which, mut sample) = ([9; 6], [9; 6], [9; 6], 9);
        let [a, b, c, d] = [0, 1, 2, 3].map(|unit| units.map(|row| row[unit]));
        assert_eq!(reserve_run(3, 2, 0, &a, &b, &c, &d, &mut words, &mut marks, &mut which, &mut sample), Ok(()));
        assert_eq!((words, marks, which, sample), ([5, 5, 5, 5, 5, 4], [0, 1, 2, 1, 1, 0], [0, 1, 1, 1, 1, 0], 0));
        assert_eq!((Reserve::new(0, 2), Reserve::from_word(3, 2, 8)), (Err(2), Err(5)));
        assert_eq!(Reserve::new(3, 2), Reserve::from_word(3, 2, 7));
        let mut state = Reserve { phase: 1, n: 3, need: 4, word: 5, count: 2 };
        assert_eq!(state.step([0, 0, 6, 7]), Ok(ReserveAnswer { word: 5, mark: HELD, pair: 2, which: NEITHER }));
        assert_eq!(state, Reserve { phase: 2, n: 3, need: 4, word: 5, count: 0 });
    }

    #[test]
    fn others() {
        assert_eq!(version(), VERSION);
        assert_eq!(sizing_of(3, 10, 12, 25), Ok(Sizing { count: 3, votes: 4, age: 133, quiet: 145 }));
        assert_eq!(threshold_vote(&Readings { x1: 0.0, x2: 0.5, x3: 1.0, tolerance: 0.5 }), Ok(Some(0.5)));
        assert_eq!(threshold_vote(&Readings { x1: 1.0, x2: 2.0, x3: 3.0, tolerance: 0.5 }), Ok(None));
        // Two units, 1 sample, n 4, N 3, word 7; the columns start at 44, 48 and 52; time 11, samples 6 and 5.
        let numbers: [u32; 13] = [2, 1, 4, 3, 7, 44, 48, 52, 0, 0, 11, 6, 5];
        let mut bytes = b"QSR1".to_vec();
        bytes.extend(numbers.iter().flat_map(|number| number.to_le_bytes()));
        let (mut slices, mut sample) = ([[9; MAX_SAMPLES]; 5], 9);
        let header = recording_read(&bytes, slices.each_mut().map(|slice| &mut slice[..]), &mut sample);
        assert_eq!(header, Ok(Header { units: 2, samples: 1, n: 4, need: 3, word: 7 }));
        assert_eq!((slices.map(|slice| slice[0]), sample), ([11, 6, 5, 9, 9], 0));
        let mut out = vec![0; LONGEST_LISTING];
        assert_eq!(listing_list(&bytes, &mut out), Ok((33, false)));
        assert_eq!(&out[..33], b"pair 1 4 3\n0 00000007 H 00000000\n");
        assert_eq!(listing_list(&[], &mut out), Ok((16, true)));
        assert_eq!(listing_list(&bytes, &mut out[1..]), Err(100));
    }
}
