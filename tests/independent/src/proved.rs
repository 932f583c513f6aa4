//! The proved library's C entry, on slices.

#[link(name = "host", kind = "static")]
unsafe extern "C" {
    fn gingerpost_rewrite(module: *const u8, module_len: usize, out: *mut u8, out_len: usize) -> u64;
    fn gingerpost_report(module: *const u8, module_len: usize, out: *mut u8, out_len: usize) -> u64;
}

pub fn rewrite(module: &[u8], out: &mut [u8]) -> u64 {
    // SAFETY: both slices are valid for their lengths and don't overlap, as the entry asks.
    unsafe { gingerpost_rewrite(module.as_ptr(), module.len(), out.as_mut_ptr(), out.len()) }
}

pub fn report(module: &[u8], out: &mut [u8]) -> u64 {
    // SAFETY: as above.
    unsafe { gingerpost_report(module.as_ptr(), module.len(), out.as_mut_ptr(), out.len()) }
}
