//! The library's run, and the calls of the Rattle crate `bench`, which makes them a number of times over.

mod library {
    extern "C" {
        pub fn tautlichen_run(book: *const u8, size: usize, answers: *mut u8, room: usize) -> u8;
        pub fn bench_broken(book: *const u8, size: usize, at: u8, times: u32) -> u32;
        pub fn bench_walk(book: *const u8, size: usize, key: u8, at: u8, times: u32) -> u32;
        pub fn bench_lineage(book: *const u8, size: usize, key: u8, at: u8, times: u32) -> u32;
        pub fn bench_drain(book: *const u8, size: usize, at: u8, times: u32) -> u32;
        pub fn bench_step(
            book: *const u8,
            size: usize,
            step: *const u8,
            step_size: usize,
            at: u8,
            times: u32,
        ) -> u32;
        pub fn bench_step_unbroken(
            book: *const u8,
            size: usize,
            step: *const u8,
            step_size: usize,
            times: u32,
        ) -> u32;
        pub fn bench_receive(held: u32, last: u32, times: u32) -> u32;
    }
}

/// One run of a book by the library: its number.
pub fn run(book: &[u8], answers: &mut [u8]) -> u8 {
    // SAFETY: both slices live through the call, and each length is its slice's.
    unsafe {
        library::tautlichen_run(book.as_ptr(), book.len(), answers.as_mut_ptr(), answers.len())
    }
}

/// How many turns found the machine after a book broken.
pub fn broken(book: &[u8], at: u8, times: u32) -> u32 {
    // SAFETY: the slice lives through the call, and the length is its own.
    unsafe { library::bench_broken(book.as_ptr(), book.len(), at, times) }
}

/// How many keys the walks of the turns answered.
pub fn walk(book: &[u8], key: u8, at: u8, times: u32) -> u32 {
    // SAFETY: as above.
    unsafe { library::bench_walk(book.as_ptr(), book.len(), key, at, times) }
}

/// How many bytes the PROV-N documents of the turns have.
pub fn lineage(book: &[u8], key: u8, at: u8, times: u32) -> u32 {
    // SAFETY: as above.
    unsafe { library::bench_lineage(book.as_ptr(), book.len(), key, at, times) }
}

/// How many steps the drains of the turns took, and each time the interactions made.
pub fn drain(book: &[u8], at: u8, times: u32) -> u32 {
    // SAFETY: as above.
    unsafe { library::bench_drain(book.as_ptr(), book.len(), at, times) }
}

/// The numbers of the turns' steps, and each time the interactions made. The step is as a book has it.
pub fn step(book: &[u8], step: &[u8], at: u8, times: u32) -> u32 {
    // SAFETY: both slices live through the call, and each length is its slice's.
    unsafe { library::bench_step(book.as_ptr(), book.len(), step.as_ptr(), step.len(), at, times) }
}

/// The same, without the test for a broken value in each turn.
pub fn step_unbroken(book: &[u8], step: &[u8], times: u32) -> u32 {
    // SAFETY: as above.
    unsafe {
        library::bench_step_unbroken(book.as_ptr(), book.len(), step.as_ptr(), step.len(), times)
    }
}

/// The numbers of the turns' messages, each of the last activity that a store of the first PReP
/// holds, and each time how many it holds.
pub fn receive(held: u32, last: u32, times: u32) -> u32 {
    // SAFETY: the library takes any three numbers.
    unsafe { library::bench_receive(held, last, times) }
}
