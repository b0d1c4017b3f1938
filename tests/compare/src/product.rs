//! The functions that the product's static library exports. A slice passes as
//! a pointer and a length.

/// File, number and place; number 0 says that nothing was refused.
#[repr(C)]
#[derive(Clone, Copy, Debug, Default, PartialEq, Eq)]
pub struct Refused {
    pub file: usize,
    pub number: usize,
    pub place: usize,
}

/// What the log's reader answers; all counts are 0 on a refusal.
#[repr(C)]
#[derive(Clone, Copy, Debug, Default, PartialEq, Eq)]
pub struct LogRead {
    pub refused: Refused,
    pub fields: usize,
    pub events: usize,
}

pub const NONE: usize = 0;
pub const ACCEPT: usize = 1;
pub const REJECT: usize = 2;

/// What a search answers; entries that are not used are 0.
#[repr(C)]
#[derive(Clone, Copy, Debug, Default, PartialEq, Eq)]
pub struct Found {
    pub refused: Refused,
    pub verdict: usize,
    pub steps: usize,
    pub events: [u32; 32],
    pub numbers: [u32; 32],
    /// A `bool` each, taken as a byte so that any byte but 0 and 1 shows.
    pub held: [u8; 8],
    pub values: [u32; 8],
    pub width: usize,
}

extern "C" {
    fn hikwallu_read_log(log: *const u8, log_len: usize) -> LogRead;

    fn hikwallu_read_formula(formula: *const u8, formula_len: usize, fields: usize) -> Refused;

    fn hikwallu_search(
        log: *const u8,
        log_len: usize,
        formula: *const u8,
        formula_len: usize,
        start: usize,
        work: *mut u32,
        work_len: usize,
    ) -> Found;

    fn hikwallu_analyse(
        log: *const u8,
        log_len: usize,
        formula: *const u8,
        formula_len: usize,
        work: *mut u32,
        work_len: usize,
        rows: *mut u32,
        rows_len: usize,
    ) -> Refused;
}

pub fn read_log(log: &[u8]) -> LogRead {
    // SAFETY: pointer and length are those of a slice; it is only read.
    unsafe { hikwallu_read_log(log.as_ptr(), log.len()) }
}

pub fn read_formula(formula: &[u8], fields: usize) -> Refused {
    // SAFETY: as above.
    unsafe { hikwallu_read_formula(formula.as_ptr(), formula.len(), fields) }
}

pub fn search(log: &[u8], formula: &[u8], start: usize, work: &mut [u32]) -> Found {
    // SAFETY: as above; the work words are lent for the call alone.
    unsafe {
        hikwallu_search(
            log.as_ptr(),
            log.len(),
            formula.as_ptr(),
            formula.len(),
            start,
            work.as_mut_ptr(),
            work.len(),
        )
    }
}

pub fn analyse(log: &[u8], formula: &[u8], work: &mut [u32], rows: &mut [u32]) -> Refused {
    // SAFETY: as above; so are the rows.
    unsafe {
        hikwallu_analyse(
            log.as_ptr(),
            log.len(),
            formula.as_ptr(),
            formula.len(),
            work.as_mut_ptr(),
            work.len(),
            rows.as_mut_ptr(),
            rows.len(),
        )
    }
}
