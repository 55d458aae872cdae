//! The table that the crate gives for the virtual machine is the original's own.
#![cfg(feature = "port")]

#[test]
fn the_table_is_the_original_s() {
    assert_eq!(oliastrofu::VM_TABLE, original::table());
}
