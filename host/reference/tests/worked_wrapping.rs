//! The wrapping and the view at their lines.

mod common;

use reference::version::Version;

fn reading_data<V: Version>() {
    assert_eq!(V::read_data(&[0x05, 1, 2]), (0, false, 5));
    assert_eq!(V::read_data(&[0x85, 1, 2]), (0, true, 5));
    assert_eq!(V::read_data(&[0x06, 1, 2]), (20, false, 0));
    assert_eq!(V::read_data(&[0x86, 1, 2]), (20, false, 0));
    assert_eq!(V::read_data(&[]), (20, false, 0));
    assert_eq!(V::read_data(&[0xFF]), (0, true, 127));
}

fn bodies<V: Version>() {
    let data = [0x85, 1, 2];
    assert!(std::ptr::eq(V::body_of(&data), &data[1..]));
    assert!(V::body_of(&[0x05]).is_empty());
    assert!(V::body_of(&[0x06, 1]).is_empty());
    assert!(V::body_of(&[0x86, 1]).is_empty());
    assert!(V::body_of(&[]).is_empty());
}

fn writing_data<V: Version>() {
    let mut out = [9; 5];
    assert_eq!(V::wrap_data(true, 5, &[1, 2], &mut out), (0, 3));
    assert_eq!(out, [0x85, 1, 2, 9, 9]);
    assert_eq!(V::wrap_data(false, 127, &[], &mut out), (0, 1));
    assert_eq!(out, [0x7F, 1, 2, 9, 9]);
    assert_eq!(V::wrap_data(false, 6, &[1], &mut out), (20, 0));
    assert_eq!(V::wrap_data(false, 128, &[1], &mut out), (20, 0));
    assert_eq!(V::wrap_data(true, 0x85, &[1], &mut out), (20, 0));
    assert_eq!(V::wrap_data(false, 5, &[1; 5], &mut out), (17, 0));
    assert_eq!(V::wrap_data(false, 6, &[1; 5], &mut out), (20, 0));
    assert_eq!(out, [0x7F, 1, 2, 9, 9], "refusals write nothing");
    assert_eq!(V::wrap_data(false, 5, &[1; 4], &mut out), (0, 5));
    assert_eq!(out, [5, 1, 1, 1, 1]);
}

fn messages<V: Version>() {
    let mut out = [9; 4];
    assert_eq!(V::wrap_record(&[1, 2], &mut out), (0, 3));
    assert_eq!(out, [6, 1, 2, 9]);
    assert_eq!(V::wrap_record(&[1; 4], &mut out), (17, 0));
    assert_eq!(out, [6, 1, 2, 9]);
    assert_eq!(V::wrap_record(&[], &mut out), (0, 1));
    assert_eq!(V::wrap_record(&[], &mut []), (17, 0));

    assert_eq!(V::read_message(&out), 0);
    assert!(std::ptr::eq(V::record_of(&out), &out[1..]));
    for bad in [&[0x86, 1][..], &[5, 1], &[]] {
        assert_eq!(V::read_message(bad), 21);
        assert!(V::record_of(bad).is_empty());
    }
    assert_eq!(V::read_message(&[6]), 0);
    assert!(V::record_of(&[6]).is_empty());
}

fn views<V: Version>() {
    let (rec, plain) = ([1, 2, 3], [4, 5]);
    assert_eq!(V::view(0, 1, 2, &rec, &plain), [2, 3]);
    assert_eq!(V::view(1, 1, 1, &rec, &plain), [5]);
    assert_eq!(V::view(1, 0, 2, &rec, &plain), [4, 5]);
    for (mode, place, len) in [
        (2, 0, 1),
        (255, 0, 1),
        (0, 1, 3),
        (1, 1, 2),
        (0, 4, 0),
        (0, u64::MAX, 2),
        (1, 1, u64::MAX),
        (1, u64::MAX, u64::MAX),
    ] {
        assert!(V::view(mode, place, len, &rec, &plain).is_empty());
    }
}

for_both!(reading_data, bodies, writing_data, messages, views);
