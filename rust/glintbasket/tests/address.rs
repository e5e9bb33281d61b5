//! Addresses and rights by themselves.

use glintbasket::{DeviceAddress, MemoryAddress, Rights};

#[test]
fn addresses_are_shown_in_hexadecimal() {
    assert_eq!(DeviceAddress(0x10000).to_string(), "0x10000");
    assert_eq!(MemoryAddress(4095).to_string(), "0xfff");
}

#[test]
fn addresses_are_ordered_by_their_number() {
    assert!(DeviceAddress(1) < DeviceAddress(2));
    assert!(MemoryAddress(1) < MemoryAddress(2));
}

#[test]
fn rights_are_joined_and_tested_bit_by_bit() {
    let both = Rights::READ | Rights::WRITE;
    assert_eq!(both, Rights(3));
    assert!(both.contains(Rights::READ) && both.contains(Rights::WRITE));
    assert!(!Rights::READ.contains(Rights::WRITE));
    assert!(!Rights::READ.contains(both));
}
