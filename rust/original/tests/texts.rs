//! The texts that were compiled are those of the release that the port follows.

#[test]
fn texts() {
    assert_eq!(
        original::TEXTS,
        [
            ("operations/mod.rs", 1110, 0xfc76_f17a_6cf4_65f3),
            (
                "mast/node/basic_block_node/mod.rs",
                870,
                0x0346_8c81_62b9_e033
            ),
            (
                "mast/node/basic_block_node/op_batch.rs",
                604,
                0x2144_d1ef_73ee_5622
            ),
            (
                "mast/serialization/basic_blocks.rs",
                320,
                0xf9c1_074d_2dd9_60d0
            ),
        ]
    );
}
