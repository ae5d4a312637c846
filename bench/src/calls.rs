//! The C functions of the library, as crates/fennrolka/fennrolka.h has them, and safe calls of them.

#[link(name = "fennrolka", kind = "static")]
extern "C" {
    fn fennrolka_read(
        file: *const u8,
        file_length: usize,
        told: *mut u64,
        told_length: usize,
    ) -> u32;

    fn fennrolka_event(
        file: *const u8,
        file_length: usize,
        event: usize,
        told: *mut u64,
        told_length: usize,
    ) -> u32;

    fn fennrolka_analyse(
        file: *const u8,
        file_length: usize,
        budget: u32,
        work: *mut u16,
        work_length: usize,
        list: *mut u16,
        list_length: usize,
        told: *mut u64,
        told_length: usize,
    ) -> u32;
}

pub fn read(file: &[u8], told: &mut [u64]) -> u32 {
    // SAFETY: each pointer comes from a slice with its length.
    unsafe { fennrolka_read(file.as_ptr(), file.len(), told.as_mut_ptr(), told.len()) }
}

pub fn event(file: &[u8], event: usize, told: &mut [u64]) -> u32 {
    // SAFETY: as above.
    unsafe {
        fennrolka_event(
            file.as_ptr(),
            file.len(),
            event,
            told.as_mut_ptr(),
            told.len(),
        )
    }
}

pub fn analyse(
    file: &[u8],
    budget: u32,
    work: &mut [u16],
    list: &mut [u16],
    told: &mut [u64],
) -> u32 {
    // SAFETY: as above; the borrows keep the three parts apart.
    unsafe {
        fennrolka_analyse(
            file.as_ptr(),
            file.len(),
            budget,
            work.as_mut_ptr(),
            work.len(),
            list.as_mut_ptr(),
            list.len(),
            told.as_mut_ptr(),
            told.len(),
        )
    }
}
