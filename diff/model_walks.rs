//! The walks of the plain slow model, with the bounds that this library documents.
use crate::model::width;
use crate::sides::{BlockWalk, Walk};
use std::collections::BTreeSet;

/// A walk over the items of a list. Its upper bound is `most`, or else the bits of the blocks from the current one on:
/// at first the first block or that of the number at which it begins, after an item that of the item, and at the end
/// the last.
#[derive(Clone)]
pub struct ModelWalk {
    pub items: std::rc::Rc<[usize]>,
    pub taken: usize,
    pub block: usize,
    pub last_block: usize,
    pub most: Option<usize>,
}

impl Walk for ModelWalk {
    fn bounds(&self) -> (usize, Option<usize>) {
        let blocks_left = 1 + self.last_block - self.block;
        (0, Some(self.most.unwrap_or(blocks_left * width())))
    }

    fn next(&mut self) -> Option<usize> {
        self.most = self.most.map(|most| most.saturating_sub(1));
        let item = self.items.get(self.taken).copied();
        self.taken += usize::from(item.is_some());
        self.block = item.map_or(self.last_block, |item| item / width());
        item
    }

    fn copy(&self) -> Box<dyn Walk + '_> {
        Box::new(self.clone())
    }

    fn count_left(&self) -> usize {
        self.items.len() - self.taken
    }
}

/// A walk over the absent numbers from `at` on and below `end`. Its upper bound is the distance of the end from the
/// first number of the current block: that of the last item or, at the end, the last block of the range.
#[derive(Clone)]
pub struct ModelMissing<'a> {
    pub elements: &'a BTreeSet<usize>,
    pub at: usize,
    pub index: usize,
    pub end: usize,
}

impl Walk for ModelMissing<'_> {
    fn bounds(&self) -> (usize, Option<usize>) {
        (0, Some(self.end - self.index))
    }

    fn next(&mut self) -> Option<usize> {
        while self.at < self.end && self.elements.contains(&self.at) {
            self.at += 1;
        }
        if self.at >= self.end {
            self.index += (self.end - self.index).saturating_sub(1) / width() * width();
            return None;
        }
        let item = self.at;
        self.index = item / width() * width();
        self.at += 1;
        Some(item)
    }

    fn copy(&self) -> Box<dyn Walk + '_> {
        Box::new(self.clone())
    }

    fn count_left(&self) -> usize {
        let end = self.end.max(self.at);
        end - self.at - self.elements.range(self.at..end).count()
    }
}

#[derive(Clone)]
pub struct ModelBlocks {
    pub blocks: std::rc::Rc<[u128]>,
    pub taken: usize,
}

impl BlockWalk for ModelBlocks {
    fn bounds(&self) -> (usize, Option<usize>) {
        let left = self.blocks.len() - self.taken;
        (left, Some(left))
    }

    fn next(&mut self) -> Option<u128> {
        let block = self.blocks.get(self.taken).copied();
        self.taken += usize::from(block.is_some());
        block
    }

    fn copy(&self) -> Box<dyn BlockWalk + '_> {
        Box::new(self.clone())
    }
}
