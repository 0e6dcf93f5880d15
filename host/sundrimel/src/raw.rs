//! The exported entry with its numbers as they are: for the differential runner, which passes any
//! codes and any buffers and looks at every byte.

/// The numbers that the entry returns.
#[repr(C)]
#[derive(Clone, Copy, Debug, Default, PartialEq, Eq)]
pub struct Answer {
    pub refusal: u32,
    pub class: u32,
    pub start: u32,
    pub end: u32,
    pub probes: u32,
    pub reference_len: u32,
    pub alternative_len: u32,
}

extern "C" {
    fn sundrimel_normalize(
        target: *const u8,
        target_len: usize,
        kind: u32,
        exons: *const u8,
        exons_len: usize,
        cds_start: i64,
        cds_end: i64,
        start: i32,
        end: i32,
        edit: u32,
        alternative: *const u8,
        alternative_len: usize,
        direction: u32,
        window: u32,
        reference_out: *mut u8,
        reference_out_len: usize,
        alternative_out: *mut u8,
        alternative_out_len: usize,
    ) -> Answer;
}

/// Calls the entry. Each slice is passed as its pointer and its length.
#[allow(clippy::too_many_arguments)]
pub fn normalize(
    target: &[u8],
    kind: u32,
    exons: &[u8],
    cds_start: i64,
    cds_end: i64,
    start: i32,
    end: i32,
    edit: u32,
    alternative: &[u8],
    direction: u32,
    window: u32,
    reference_out: &mut [u8],
    alternative_out: &mut [u8],
) -> Answer {
    // SAFETY: every pointer comes with its slice's length, the two buffers are borrowed mutably and
    // so overlap with nothing, and the entry is total: it reads and writes inside them on any input.
    unsafe {
        sundrimel_normalize(
            target.as_ptr(),
            target.len(),
            kind,
            exons.as_ptr(),
            exons.len(),
            cds_start,
            cds_end,
            start,
            end,
            edit,
            alternative.as_ptr(),
            alternative.len(),
            direction,
            window,
            reference_out.as_mut_ptr(),
            reference_out.len(),
            alternative_out.as_mut_ptr(),
            alternative_out.len(),
        )
    }
}
