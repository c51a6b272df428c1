//! Rules, MurmurHash3 x86 32-bit, and points.
use crate::Fault;
use serde_json::Value;

/// Buckets with their weights, and where the points of each end.
pub struct Rule<'a> {
    pub entries: Vec<(&'a str, u32)>,
    pub ends: Vec<u32>,
}

impl<'a> Rule<'a> {
    /// The rule of a text, whose names have no escapes.
    pub fn read(bytes: &'a [u8]) -> Result<Rule<'a>, Fault> {
        Rule::new(serde_json::from_slice(bytes)?)
    }

    /// The rule of a value.
    pub fn seen(value: &'a Value) -> Result<Rule<'a>, Fault> {
        let entry = |bucket: &'a Value| Some((bucket[0].as_str()?, u32::try_from(bucket[1].as_u64()?).ok()?));
        let entries = value.as_array().and_then(|buckets| buckets.iter().map(entry).collect::<Option<Vec<_>>>());
        Rule::new(entries.ok_or("a rule is a list of names with weights")?)
    }

    pub fn new(entries: Vec<(&'a str, u32)>) -> Result<Rule<'a>, Fault> {
        let mut sum = 0u32;
        let mut ends = Vec::with_capacity(entries.len());
        for (_, weight) in &entries {
            sum = sum.checked_add(*weight).filter(|sum| *sum < 1 << 31).ok_or("a rule is too heavy")?;
            ends.push(sum);
        }
        if sum == 0 {
            Err("a rule has no weight".into())
        } else {
            Ok(Rule { entries, ends })
        }
    }

    pub fn total(&self) -> u32 {
        self.ends[self.ends.len() - 1]
    }

    pub fn point(&self, key: &str) -> u32 {
        scaled(self.total(), hash(key.as_bytes()))
    }

    pub fn entry_at(&self, point: u32) -> usize {
        self.ends.partition_point(|end| *end <= point)
    }

    pub fn name_at(&self, point: u32) -> &'a str {
        self.entries[self.entry_at(point)].0
    }
}

pub fn scaled(total: u32, hash: u32) -> u32 {
    ((u64::from(hash) * u64::from(total)) >> 32) as u32
}

fn scrambled(k: u32) -> u32 {
    k.wrapping_mul(0xcc9e_2d51).rotate_left(15).wrapping_mul(0x1b87_3593)
}

/// The MurmurHash3 x86 32-bit of the bytes, with seed 0.
pub fn hash(bytes: &[u8]) -> u32 {
    let mut h = 0u32;
    let blocks = bytes.chunks_exact(4);
    let tail = blocks.remainder();
    for block in blocks {
        h ^= scrambled(u32::from_le_bytes(block.try_into().unwrap()));
        h = h.rotate_left(13).wrapping_mul(5).wrapping_add(0xe654_6b64);
    }
    if !tail.is_empty() {
        let mut last = [0; 4];
        last[..tail.len()].copy_from_slice(tail);
        h ^= scrambled(u32::from_le_bytes(last));
    }
    h ^= bytes.len() as u32;
    h = (h ^ (h >> 16)).wrapping_mul(0x85eb_ca6b);
    h = (h ^ (h >> 13)).wrapping_mul(0xc2b2_ae35);
    h ^ (h >> 16)
}
