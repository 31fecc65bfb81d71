//! Sets as bytes: written and read back, cut, broken, and by the texts of the form's specification.
mod common;

use common::Draws;
use roaring::RoaringBitmap;
use std::io::{Cursor, ErrorKind, Read};

/// Sets whose containers are lists, blocks and runs, few and many.
fn shapes() -> Vec<RoaringBitmap> {
    let mut runs = RoaringBitmap::from_iter([3, 4, 5, 90_000]);
    runs.insert_range(200_000..400_000);
    let mut many = RoaringBitmap::from_iter((0..3_000_000).step_by(7));
    many.insert_range(1_000_000..1_500_000);
    many.optimize();
    let mut optimized = runs.clone();
    optimized.optimize();
    let sparse = RoaringBitmap::from_iter((0..500).map(|n| n * 8_000_000));
    vec![RoaringBitmap::new(), RoaringBitmap::from([u32::MAX]), runs, many, optimized, sparse, RoaringBitmap::full()]
}

fn bytes_of(set: &RoaringBitmap) -> Vec<u8> {
    let mut bytes = Vec::new();
    set.serialize_into(&mut bytes).unwrap();
    assert_eq!(bytes.len(), set.serialized_size());
    bytes
}

/// Gives one byte at a time.
struct Slow<'a>(&'a [u8]);

impl Read for Slow<'_> {
    fn read(&mut self, room: &mut [u8]) -> std::io::Result<usize> {
        let count = room.len().min(1);
        self.0.read(&mut room[..count])
    }
}

#[test]
fn what_is_written_is_read_back() {
    for set in shapes() {
        let bytes = bytes_of(&set);
        assert_eq!(RoaringBitmap::deserialize_from(&bytes[..]).unwrap(), set);
        assert_eq!(RoaringBitmap::deserialize_unchecked_from(Slow(&bytes)).unwrap(), set);
    }
}

#[test]
fn no_more_is_read_than_a_set() {
    let mut all = Vec::new();
    for set in shapes() {
        set.serialize_into(&mut all).unwrap();
        all.push(77);
    }
    let mut reader = Cursor::new(all);
    for set in shapes() {
        assert_eq!(RoaringBitmap::deserialize_from(&mut reader).unwrap(), set);
        let mut next = [0];
        reader.read_exact(&mut next).unwrap();
        assert_eq!(next, [77]);
    }
    assert_eq!(reader.read(&mut [0]).unwrap(), 0);
}

#[test]
fn bytes_that_are_cut() {
    for set in shapes() {
        let bytes = bytes_of(&set);
        for end in (0..bytes.len()).step_by(1 + bytes.len() / 50) {
            let fault = RoaringBitmap::deserialize_from(&bytes[..end]).unwrap_err();
            assert_eq!(fault.kind(), ErrorKind::UnexpectedEof);
        }
    }
}

#[test]
fn bytes_that_are_none_of_a_set() {
    let list = [0x3a, 0x30, 0, 0, 1, 0, 0, 0, 0, 0, 1, 0, 16, 0, 0, 0, 5, 0, 9, 0];
    assert!(RoaringBitmap::deserialize_from(&list[..]).unwrap().iter().eq([5, 9]));
    let fault_of = |at: usize, byte: u8| {
        let mut broken = list;
        broken[at] = byte;
        let fault = RoaringBitmap::deserialize_from(&broken[..]).unwrap_err();
        (fault.kind(), fault.to_string())
    };
    for (at, byte, text) in [
        (0, 0, "the first bytes are not those of a set"),
        (2, 1, "the first bytes are not those of a set"),
        (7, 1, "there are more containers than keys"),
        (12, 9, "a container is not at the place that the bytes state"),
        (18, 5, "the numbers of a list do not ascend"),
    ] {
        assert_eq!(fault_of(at, byte), (ErrorKind::InvalidData, text.to_string()));
    }
    assert_eq!(fault_of(10, 2).0, ErrorKind::UnexpectedEof);
}

#[test]
fn bytes_that_are_changed() {
    let mut draws = Draws(6);
    for set in shapes() {
        let bytes = bytes_of(&set);
        for _ in 0..50 {
            let mut broken = bytes.clone();
            for _ in 0..1 + draws.below(3) {
                let at = draws.below(broken.len().min(400));
                broken[at] = draws.below(256) as u8;
            }
            // What it takes for a set is one.
            if let Ok(set) = RoaringBitmap::deserialize_from(&broken[..]) {
                assert_eq!(RoaringBitmap::deserialize_from(&bytes_of(&set)[..]).unwrap(), set);
                assert_eq!(set.iter().take(1000).count() as u64, set.len().min(1000));
            }
        }
    }
}

#[test]
fn bits_of_bytes() {
    assert_eq!(RoaringBitmap::from_lsb0_bytes(8, &[5, 0, 128]), [8, 10, 31].into());
    assert_eq!(RoaringBitmap::from_bitmap_bytes(u32::MAX - 7, &[129]), [u32::MAX - 7, u32::MAX].into());
    assert_eq!(RoaringBitmap::from_lsb0_bytes(u32::MAX, &[]), RoaringBitmap::new());
    assert!(std::panic::catch_unwind(|| RoaringBitmap::from_lsb0_bytes(u32::MAX - 6, &[1])).is_err());
}

#[test]
fn an_intersection_with_bytes() {
    let (set, other) = (RoaringBitmap::from([1, 5, 70_000]), RoaringBitmap::from([5, 70_000, 4_000_000_000]));
    let mut bytes = Vec::new();
    other.serialize_into(&mut bytes).unwrap();
    assert_eq!(set.intersection_with_serialized_unchecked(Cursor::new(&bytes)).unwrap(), [5, 70_000].into());
    bytes.pop();
    assert!(set.intersection_with_serialized_unchecked(Cursor::new(&bytes)).is_err());
}
