//! The same call in plain C, without proofs.

#[repr(C)]
struct LayoutResult {
    number: u32,
    length: u32,
}

extern "C" {
    fn floor_layout_text(
        job: *const u8,
        job_len: usize,
        answer: *mut u8,
        answer_len: usize,
    ) -> LayoutResult;
}

pub fn call(job: &[u8], answer: &mut [u8]) -> (u32, u32) {
    // It reads and writes within the two slices, as the library does.
    let result =
        unsafe { floor_layout_text(job.as_ptr(), job.len(), answer.as_mut_ptr(), answer.len()) };
    (result.number, result.length)
}
