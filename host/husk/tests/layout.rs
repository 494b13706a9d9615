//! The structs lie in memory as the boundary has them: sizes and offsets, from Rust's side. The same
//! table is checked from C's side in examples/c/layout.c.
use husk::raw::*;
use std::mem::size_of;
use std::ptr::addr_of;

macro_rules! lies {
    ($type:ty, $size:expr $(, $field:ident at $place:expr)*) => {{
        assert_eq!(size_of::<$type>(), $size, stringify!($type));
        let value = <$type>::default();
        let _start = addr_of!(value) as usize;
        $(assert_eq!(addr_of!(value.$field) as usize - _start, $place, concat!(stringify!($type), ".", stringify!($field)));)*
    }};
}

#[test]
fn each_struct_lies_as_the_header_says() {
    lies!(Setting, 24, mode at 0, layout at 1, mac at 2, profile at 3, width at 4, session at 8, limit at 16);
    lies!(Iv, 12);
    lies!(Marks, 32, words at 0);
    lies!(Window, 40, next at 0, marks at 8);
    lies!(Key, 56, iv at 0, window at 16);
    lies!(Sender, 56, setting at 0, count at 24, next at 32, iv at 40);
    lies!(SenderStep, 64, answer at 0, next at 8);
    lies!(Built, 112, answer at 0, number at 8, nonce at 16, assoc at 32, text at 40, total at 48, next at 56);
    lies!(Receiver, 152, setting at 0, count at 24, current at 32, held at 88, old at 96);
    lies!(ReceiverStep, 160, answer at 0, next at 8);
    lies!(Counted, 8, answer at 0, gaps at 4);
    lies!(Offered, 48, answer at 0, count at 4, number at 8, nonce at 16, assoc at 32, text at 40);
    lies!(Settled, 176, answer at 0, place at 8, length at 16, next at 24);
    lies!(Wrote, 16, answer at 0, length at 8);
    lies!(Data, 3, answer at 0, integrity at 1, kind at 2);
    lies!(Table, 3328, rows at 0);
    lies!(Opened, 2, answer at 0, row at 1);
    lies!(Taken, 24, answer at 0, place at 8, length at 16);
    lies!(Sent, 56, answer at 0, number at 8, nonce at 16, assoc at 32, text at 40, total at 48);
    let table = Table::default();
    let start = addr_of!(table) as usize;
    assert_eq!(addr_of!(table.rows[1]) as usize - start, 208);
    assert_eq!(addr_of!(table.rows[15][25]) as usize - start, 3320);
}
