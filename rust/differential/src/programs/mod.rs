//! One call on each of the two programs, which have address types of their own.

mod emulator;
mod reference;

pub use emulator::emulate;
pub use reference::refer;

/// Makes a call on the numbers that a buffer holds, eight bytes each, and puts back what it leaves.
fn on_numbers<T>(buffer: &mut [u8], call: impl FnOnce(&mut [u64]) -> T) -> T {
    let eight = |bytes: &[u8]| u64::from_le_bytes(bytes.try_into().expect("eight bytes"));
    let mut numbers: Vec<u64> = buffer.chunks_exact(8).map(eight).collect();
    let answer = call(&mut numbers);
    for (bytes, number) in buffer.chunks_exact_mut(8).zip(numbers) {
        bytes.copy_from_slice(&number.to_le_bytes());
    }
    answer
}
