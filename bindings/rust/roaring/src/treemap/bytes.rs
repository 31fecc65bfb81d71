//! Sets as bytes, in the portable form for 64 bits.
use crate::bytes::{fault, read_more, read_set};
use crate::{raw, require, RoaringBitmap, RoaringTreemap};
use std::collections::BTreeMap;
use std::io::{self, Read, Write};
use std::ptr::null_mut;

impl RoaringTreemap {
    /// How many bytes [`serialize_into`](Self::serialize_into) writes.
    pub fn serialized_size(&self) -> usize {
        // SAFETY: the set is borrowed for the call, as in each of the calls below.
        unsafe { raw::bit_roaring64_serialized_size(self.read()) as usize }
    }

    /// Writes the set.
    ///
    /// # Errors
    ///
    /// Those of the writer.
    pub fn serialize_into<W: Write>(&self, mut writer: W) -> io::Result<()> {
        let (room, mut size) = (self.serialized_size(), 0);
        let mut bytes = Vec::with_capacity(room);
        let answer = unsafe { raw::bit_roaring64_serialize(self.read(), bytes.as_mut_ptr(), room, &mut size) };
        require(answer == raw::YES);
        // SAFETY: the call wrote so many bytes, which are no more than the room.
        unsafe { bytes.set_len(size) };
        writer.write_all(&bytes)
    }

    /// Reads a set, and of the reader no byte more than those of the set.
    ///
    /// # Errors
    ///
    /// Those of the reader; `UnexpectedEof` if it ends within the set; and `InvalidData` if the bytes are not those of a
    /// set.
    pub fn deserialize_from<R: Read>(mut reader: R) -> io::Result<Self> {
        let mut bytes = Vec::new();
        read_bitmaps(&mut reader, &mut bytes)?;
        let (mut set, mut used) = (null_mut(), 0);
        // SAFETY: `set` is null, and the bytes and the count are borrowed for the call.
        let answer = unsafe { raw::bit_roaring64_deserialize(&mut set, bytes.as_ptr(), bytes.len(), &mut used) };
        match fault(answer) {
            None => {
                debug_assert_eq!(used, bytes.len());
                Ok(RoaringTreemap { set })
            }
            Some((kind, text)) => Err(io::Error::new(kind, text)),
        }
    }

    /// The same as [`deserialize_from`](Self::deserialize_from): nothing is left unchecked.
    ///
    /// # Errors
    ///
    /// The same.
    pub fn deserialize_unchecked_from<R: Read>(reader: R) -> io::Result<Self> {
        Self::deserialize_from(reader)
    }

    /// Creates the set of bitmaps of lower halves, each with the upper half of its numbers. Of two with the same upper half
    /// the later one counts. It writes them as bytes, and reads these.
    pub fn from_bitmaps<I: IntoIterator<Item = (u32, RoaringBitmap)>>(iterator: I) -> Self {
        let mut bitmaps: BTreeMap<u32, RoaringBitmap> = iterator.into_iter().collect();
        bitmaps.retain(|_, bitmap| !bitmap.is_empty());
        let mut bytes = (bitmaps.len() as u64).to_le_bytes().to_vec();
        let written = bitmaps.iter().try_for_each(|(key, bitmap)| {
            bytes.extend(key.to_le_bytes());
            bitmap.serialize_into(&mut bytes)
        });
        written.and_then(|()| Self::deserialize_from(&bytes[..])).expect("the bytes are those of a set")
    }
}

impl FromIterator<(u32, RoaringBitmap)> for RoaringTreemap {
    fn from_iter<I: IntoIterator<Item = (u32, RoaringBitmap)>>(iterator: I) -> Self {
        Self::from_bitmaps(iterator)
    }
}

// Reads the bytes of one set, by what they say of its bitmaps, up to the end of the reader or to a bitmap that is none. The
// library judges them.
fn read_bitmaps(reader: &mut impl Read, bytes: &mut Vec<u8>) -> io::Result<()> {
    if !read_more(reader, bytes, 8)? {
        return Ok(());
    }
    let count = bytes.iter().rev().fold(0, |count, &byte| count << 8 | u64::from(byte));
    for _ in 0..count {
        let mut bitmap = Vec::new();
        let is_whole = read_more(reader, bytes, 4)? && read_set(reader, &mut bitmap)?;
        bytes.append(&mut bitmap);
        if !is_whole {
            break;
        }
    }
    Ok(())
}
