//! The benchmark with one more rival: vm-memory's `read_slice` and `write_slice`.

#![forbid(unsafe_code)]

use glint_bench::{measure_all, Memory, Rival};
use vm_memory::{Bytes, GuestAddress, GuestMemoryMmap};

const VM_MEMORY: Rival = Rival::new::<Guest>("vm-memory");

fn main() {
    println!(
        "# vm-memory has memory of its own, for the card a region for each mapping, and no marks"
    );
    measure_all(&[VM_MEMORY]);
}

struct Guest(GuestMemoryMmap);

impl Memory for Guest {
    /// A region for each part. Storing the bytes writes every page before time is taken.
    fn holding(parts: &[(u64, &[u8])]) -> Guest {
        let ranges: Vec<_> = parts
            .iter()
            .map(|(address, bytes)| (GuestAddress(*address), bytes.len()))
            .collect();
        let mut guest = Guest(GuestMemoryMmap::from_ranges(&ranges).expect("regions in order"));
        for (address, bytes) in parts {
            assert!(guest.write(*address, bytes));
        }
        guest
    }

    #[inline(always)]
    fn read(&self, address: u64, buffer: &mut [u8]) -> bool {
        self.0.read_slice(buffer, GuestAddress(address)).is_ok()
    }

    #[inline(always)]
    fn write(&mut self, address: u64, bytes: &[u8]) -> bool {
        self.0.write_slice(bytes, GuestAddress(address)).is_ok()
    }
}

#[cfg(test)]
mod tests {
    use super::*;

    #[test]
    fn it_moves_what_the_emulator_moves() {
        for mut measure in glint_bench::measures() {
            if let Some(kind) = measure.call.moves {
                let program = VM_MEMORY.program(kind, &mut measure.world);
                assert!(program.is_some(), "{kind:?} {}", measure.world.held);
            }
        }
    }
}
