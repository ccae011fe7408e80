//! The engine's call, through its C interface.

use crate::judge::Numbers;

extern "C" {
    fn anahruyk_split(
        terms: *const u8,
        terms_length: usize,
        literals: *const u8,
        literals_length: usize,
        partition: *mut u8,
        partition_length: usize,
        added: *mut u8,
        added_length: usize,
        clauses: *mut u8,
        clauses_length: usize,
    ) -> Numbers;
}

pub fn split(terms: &[u8], literals: &[u8], buffers: [&mut [u8]; 3]) -> Numbers {
    let [partition, added, clauses] = buffers;
    // Each pointer comes with the length of its own slice, and the lent ones are borrowed alone.
    unsafe {
        anahruyk_split(
            terms.as_ptr(),
            terms.len(),
            literals.as_ptr(),
            literals.len(),
            partition.as_mut_ptr(),
            partition.len(),
            added.as_mut_ptr(),
            added.len(),
            clauses.as_mut_ptr(),
            clauses.len(),
        )
    }
}
