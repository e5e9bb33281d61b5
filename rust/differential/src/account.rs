//! The account of mapped bytes: from what calls are given and leave, how many are mapped (rule 8.16).

use glintbasket::{number, Mapping};

use crate::call::Call;

/// Since the last accepted fresh start: the sizes of accepted maps, and those that accepted unmaps
/// reported.
#[derive(Clone, Copy, Debug, Default, PartialEq, Eq)]
pub struct Account {
    mapped: u128,
    unmapped: u128,
}

impl Account {
    /// Enters an accepted call, given its buffer and what it left there.
    pub fn enter(&mut self, call: &Call, given: &[u8], left: &[u8]) {
        match *call {
            Call::FreshStart { .. } => *self = Account::default(),
            Call::Request {
                target: 0,
                number: number::IOMMU_MAP_DMA,
            } => self.mapped += size_at(given, 24),
            Call::Request {
                target: 0,
                number: number::IOMMU_UNMAP_DMA,
            } => self.unmapped += size_at(left, 16),
            _ => {}
        }
    }

    /// Whether these are the mappings that it tells of.
    pub fn balances(&self, held: &[Mapping]) -> bool {
        let sizes: u128 = held.iter().map(|m| u128::from(m.size)).sum();
        self.mapped == self.unmapped + sizes
    }
}

fn size_at(buffer: &[u8], at: usize) -> u128 {
    let bytes = buffer[at..at + 8].try_into().expect("eight bytes");
    u128::from(u64::from_le_bytes(bytes))
}

#[cfg(test)]
mod tests {
    use super::*;
    use glintbasket::{Card, DeviceAddress};

    fn request(number: u32) -> Call {
        Call::Request { target: 0, number }
    }

    fn with_number(length: usize, at: usize, number: u64) -> Vec<u8> {
        let mut buffer = vec![0; length];
        buffer[at..at + 8].copy_from_slice(&number.to_le_bytes());
        buffer
    }

    fn held(sizes: &[u64]) -> Vec<Mapping> {
        let mapping = |&size| Mapping {
            device: DeviceAddress(0),
            size,
            ..Mapping::default()
        };
        sizes.iter().map(mapping).collect()
    }

    #[test]
    fn a_map_enters_what_it_asks_for_and_an_unmap_what_it_leaves() {
        let mut account = Account::default();
        assert!(account.balances(&[]));
        let map = with_number(32, 24, 8192);
        account.enter(&request(number::IOMMU_MAP_DMA), &map, &map);
        assert!(account.balances(&held(&[4096, 4096])));
        assert!(!account.balances(&held(&[4096])));
        let asked = with_number(24, 16, 65536);
        let left = with_number(24, 16, 4096);
        account.enter(&request(number::IOMMU_UNMAP_DMA), &asked, &left);
        assert!(account.balances(&held(&[4096])));
        assert!(!account.balances(&[]));
    }

    #[test]
    fn a_fresh_start_begins_anew_and_other_calls_enter_nothing() {
        let mut account = Account::default();
        let map = with_number(32, 24, 4096);
        account.enter(&request(number::IOMMU_MAP_DMA), &map, &map);
        account.enter(&request(number::IOMMU_GET_INFO), &map, &map);
        account.enter(&Call::Stop, &map, &map);
        assert!(account.balances(&held(&[4096])));
        let card = Card::Features64;
        account.enter(&Call::FreshStart { card }, &[], &[]);
        assert!(account.balances(&[]));
    }
}
