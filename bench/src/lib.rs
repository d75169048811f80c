//! The three report services behind one signature, and the files on which they
//! are measured.

pub mod inputs;
pub mod stack;

/// A report service: the file and the lent space, each a pointer and a length.
pub type Service = unsafe extern "C" fn(*const u8, usize, *mut u8, usize) -> u64;

extern "C" {
    /// The unit's, of its static library.
    pub fn settlement_report(file: *const u8, file_len: usize, space: *mut u8, len: usize) -> u64;
}

/// A report service in Rust under a name that callgrind can tell apart: it takes
/// slices, and is called as the unit's is.
macro_rules! service {
    ($name:ident, $report:expr) => {
        /// # Safety
        /// The pointers are to that many bytes.
        #[no_mangle]
        #[inline(never)]
        pub unsafe extern "C" fn $name(
            file: *const u8,
            file_len: usize,
            space: *mut u8,
            space_len: usize,
        ) -> u64 {
            let file = std::slice::from_raw_parts(file, file_len);
            let space = std::slice::from_raw_parts_mut(space, space_len);
            $report(file, space) as u64
        }
    };
}

// The fast version in Rust, and the second implementation.
service!(spans_report, spans::report);
service!(second_report, reference::services::report);

pub const SERVICES: [(&str, Service); 3] =
    [("unit", settlement_report), ("spans", spans_report), ("second", second_report)];

/// Calls a service.
#[inline(always)]
pub fn call(service: Service, file: &[u8], space: &mut [u8]) -> u64 {
    unsafe { service(file.as_ptr(), file.len(), space.as_mut_ptr(), space.len()) }
}
