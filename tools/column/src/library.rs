//! The library's two calls.

/// The number of a refusal, or 0, and the width.
#[repr(C)]
#[derive(Clone, Copy)]
pub struct Width {
    pub number: u32,
    pub width: f32,
}

impl Width {
    pub fn same(self, other: Width) -> bool {
        self.number == other.number && self.width.to_bits() == other.width.to_bits()
    }

    pub fn shown(self) -> String {
        format!("{} with {:?}", self.number, self.width)
    }
}

#[cfg(library)]
mod linked {
    use super::Width;

    extern "C" {
        pub fn column_open(window: *mut u32, words: usize, span: u32) -> Width;
        pub fn column_add(window: *mut u32, words: usize, extent: f32) -> Width;
    }
}

// The library reads and writes within the slice: that is its contract, and what the runs try.

#[cfg(library)]
pub fn open(window: &mut [u32], span: u32) -> Width {
    unsafe { linked::column_open(window.as_mut_ptr(), window.len(), span) }
}

#[cfg(library)]
pub fn add(window: &mut [u32], extent: f32) -> Width {
    unsafe { linked::column_add(window.as_mut_ptr(), window.len(), extent) }
}

#[cfg(not(library))]
pub fn open(_window: &mut [u32], _span: u32) -> Width {
    missing()
}

#[cfg(not(library))]
pub fn add(_window: &mut [u32], _extent: f32) -> Width {
    missing()
}

#[cfg(not(library))]
fn missing() -> ! {
    eprintln!("built without the library: run `rt lib` in crates/layout_c, or set LAYOUT_ARCHIVE, and build again");
    std::process::exit(2);
}
