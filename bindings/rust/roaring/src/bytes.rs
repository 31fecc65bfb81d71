//! Sets as bytes, in the portable form that other Roaring bitmaps read and write.
use crate::{out_of_memory, raw, require, RoaringBitmap};
use std::io::{self, ErrorKind, Read, Seek, Write};
use std::ptr::null_mut;

/// The first two bytes of a set with containers of runs, and those of any other.
const WITH_RUNS: u16 = 12347;
const WITHOUT_RUNS: u16 = 12346;
/// With fewer containers a set with runs has no places of containers.
const WITH_PLACES: usize = 4;
/// The most containers that there are.
const KEYS: usize = 1 << 16;
/// A container with more members has blocks in place of a list.
const LIST_MOST: usize = 4096;
const BLOCKS_BYTES: usize = 8192;

impl RoaringBitmap {
    /// How many bytes [`serialize_into`](Self::serialize_into) writes.
    pub fn serialized_size(&self) -> usize {
        // SAFETY: the set is borrowed for the call, as in each of the calls below.
        unsafe { raw::bit_roaring_serialized_size(self.read()) }
    }

    /// Writes the set.
    ///
    /// # Errors
    ///
    /// Those of the writer.
    pub fn serialize_into<W: Write>(&self, mut writer: W) -> io::Result<()> {
        let size = self.serialized_size();
        let mut bytes = Vec::with_capacity(size);
        let answer = unsafe { raw::bit_roaring_serialize(self.read(), bytes.as_mut_ptr(), size) };
        require(answer == raw::YES);
        // SAFETY: the call wrote so many bytes.
        unsafe { bytes.set_len(size) };
        writer.write_all(&bytes)
    }

    /// Reads a set, and of the reader no byte more than those of the set.
    ///
    /// # Errors
    ///
    /// Those of the reader; `UnexpectedEof` if it ends within the set; and `InvalidData` if the bytes are not those of a
    /// set.
    pub fn deserialize_from<R: Read>(mut reader: R) -> io::Result<Self> {
        let mut bytes = Vec::new();
        read_set(&mut reader, &mut bytes)?;
        let (mut set, mut used) = (null_mut(), 0);
        let answer = unsafe { raw::bit_roaring_deserialize(&mut set, bytes.as_ptr(), bytes.len(), &mut used) };
        match fault(answer) {
            None => {
                debug_assert_eq!(used, bytes.len());
                Ok(RoaringBitmap { set })
            }
            Some((kind, text)) => Err(io::Error::new(kind, text)),
        }
    }

    /// The same as [`deserialize_from`](Self::deserialize_from): nothing is left unchecked.
    ///
    /// # Errors
    ///
    /// The same.
    pub fn deserialize_unchecked_from<R: Read>(reader: R) -> io::Result<Self> {
        Self::deserialize_from(reader)
    }

    /// What is in this set and in that which the reader has. Reads all of that one, and leaves nothing unchecked.
    ///
    /// # Errors
    ///
    /// Those of [`deserialize_from`](Self::deserialize_from).
    pub fn intersection_with_serialized_unchecked<R: Read + Seek>(&self, other: R) -> io::Result<Self> {
        Ok(Self::deserialize_from(other)? & self)
    }
}

// What is wrong with bytes for which the library returned this.
pub(crate) fn fault(answer: i32) -> Option<(ErrorKind, &'static str)> {
    let text = match answer {
        raw::YES => return None,
        raw::SHORT | raw::SHORT64 => return Some((ErrorKind::UnexpectedEof, "the bytes end within the set")),
        raw::BAD_COOKIE => "the first bytes are not those of a set",
        raw::BAD_COUNT => "there are more containers than keys",
        raw::BAD_KEYS => "the keys of the containers do not ascend",
        raw::BAD_OFFSET => "a container is not at the place that the bytes state",
        raw::BAD_CARDINALITY => "a container has another number of members than stated",
        raw::BAD_ORDER => "the numbers of a list do not ascend",
        raw::BAD_RUNS => "runs do not ascend, touch or overlap, or one extends past its container",
        raw::BAD_KEYS64 => "the keys of the bitmaps do not ascend",
        raw::EMPTY_BITMAP64 => "a bitmap has no members",
        _ => out_of_memory(),
    };
    Some((ErrorKind::InvalidData, text))
}

// Reads the bytes of one set, by what they say of its parts, up to the end of the reader or to a part that is in no set, and
// returns whether it came to their end. The library judges them.
pub(crate) fn read_set(reader: &mut impl Read, bytes: &mut Vec<u8>) -> io::Result<bool> {
    let Some((with_runs, count)) = read_count(reader, bytes)? else {
        return Ok(false);
    };
    let runs_at = bytes.len();
    let heads_at = runs_at + if with_runs { (count + 7) / 8 } else { 0 };
    let lists_at = heads_at + 4 * count;
    let places = if with_runs && count < WITH_PLACES { 0 } else { 4 * count };
    if !read_more(reader, bytes, lists_at + places - runs_at)? {
        return Ok(false);
    }
    // How many bytes are known to follow. Of runs the first two say how many there are.
    let mut known = 0;
    for container in 0..count {
        if with_runs && bytes[runs_at + container / 8] >> (container % 8) & 1 == 1 {
            if !read_more(reader, bytes, known + 2)? {
                return Ok(false);
            }
            known = 4 * usize::from(number_at(bytes, bytes.len() - 2));
        } else {
            known += match usize::from(number_at(bytes, heads_at + 4 * container + 2)) + 1 {
                members if members <= LIST_MOST => 2 * members,
                _ => BLOCKS_BYTES,
            };
        }
    }
    read_more(reader, bytes, known)
}

// Reads whether there are runs, and how many containers there are; `None` if the bytes do not say so.
fn read_count(reader: &mut impl Read, bytes: &mut Vec<u8>) -> io::Result<Option<(bool, usize)>> {
    if !read_more(reader, bytes, 4)? {
        return Ok(None);
    }
    match number_at(bytes, 0) {
        WITH_RUNS => Ok(Some((true, usize::from(number_at(bytes, 2)) + 1))),
        WITHOUT_RUNS if number_at(bytes, 2) == 0 && read_more(reader, bytes, 4)? => {
            let count = usize::from(number_at(bytes, 4)) | usize::from(number_at(bytes, 6)) << 16;
            Ok(Some((false, count)).filter(|_| count <= KEYS))
        }
        _ => Ok(None),
    }
}

fn number_at(bytes: &[u8], at: usize) -> u16 {
    u16::from_le_bytes([bytes[at], bytes[at + 1]])
}

// Reads so many bytes, and returns whether they were there.
pub(crate) fn read_more(reader: &mut impl Read, bytes: &mut Vec<u8>, count: usize) -> io::Result<bool> {
    Ok(reader.take(count as u64).read_to_end(bytes)? == count)
}
