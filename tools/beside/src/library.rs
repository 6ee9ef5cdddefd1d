//! The library's C call.

/// The number of the refusal, or 0, and the answer's length.
pub struct Returned {
    pub number: u32,
    pub length: u32,
}

#[cfg(library)]
mod linked {
    #[repr(C)]
    pub struct LayoutResult {
        pub number: u32,
        pub length: u32,
    }

    extern "C" {
        pub fn layout_text(
            job: *const u8,
            job_len: usize,
            answer: *mut u8,
            answer_len: usize,
        ) -> LayoutResult;
    }
}

#[cfg(library)]
pub fn call(job: &[u8], answer: &mut [u8]) -> Returned {
    // The library reads and writes within the two slices: that is its contract, and what the runs try.
    let result =
        unsafe { linked::layout_text(job.as_ptr(), job.len(), answer.as_mut_ptr(), answer.len()) };
    Returned {
        number: result.number,
        length: result.length,
    }
}

#[cfg(not(library))]
pub fn call(_job: &[u8], _answer: &mut [u8]) -> Returned {
    eprintln!("built without the library: run `rt lib` in crates/layout_c, or set LAYOUT_ARCHIVE, and build again");
    std::process::exit(2);
}
