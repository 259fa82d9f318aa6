//! A tree that grows at its end. Each block is made where it stays, so that none is copied when it is added, and nothing
//! is done where the block around it ends: the depth of the next one says into which block it goes.

use crate::calls::Block;
use crate::ASN1Block;
use std::marker::PhantomData;
use std::mem::{self, MaybeUninit};
use std::ptr;

/// No certificate nests more deeply, or has more attempts.
const USUAL_DEPTH: usize = 32;
const USUAL_ATTEMPTS: usize = 16;

/// A block of another class than Universal, which holds one other, and so far is a SEQUENCE of this one.
struct Attempt<'a> {
    block: *mut ASN1Block,
    record: &'a Block,
}

/// Blocks, to which others are added in the order of their records.
pub(crate) struct Growing<'a> {
    /// The items at each depth to which a block is added: those of the document, and of the last block that was opened
    /// at the depth before.
    items: Vec<*mut Vec<ASN1Block>>,
    /// In the order of their records.
    attempts: Vec<Attempt<'a>>,
    blocks: PhantomData<&'a mut Vec<ASN1Block>>,
}

impl<'a> Growing<'a> {
    /// Adds to the blocks of a document, which have room for all.
    pub fn new(blocks: &'a mut Vec<ASN1Block>) -> Growing<'a> {
        let mut items: Vec<*mut Vec<ASN1Block>> = Vec::with_capacity(USUAL_DEPTH);
        items.push(blocks);
        Growing { items, attempts: Vec::with_capacity(USUAL_ATTEMPTS), blocks: PhantomData }
    }

    // SAFETY, of each below, whatever the records say: no vector of blocks gets more items than it has room for, so no
    // block moves, and none is dropped but what `give_up` returns, after which nothing here points into it. What a
    // pointer leads to is borrowed for one step, and a pointer to the items of a block is made of that to the block.

    /// Adds a block at a depth, which `write` makes where it stays.
    #[inline(always)]
    pub fn push(
        &mut self,
        depth: usize,
        write: impl for<'s> FnOnce(&'s mut MaybeUninit<ASN1Block>) -> &'s mut ASN1Block,
    ) {
        let items = unsafe { &mut *self.items[depth] };
        let slot = &mut items.spare_capacity_mut()[0];
        let place = slot.as_ptr();
        assert!(ptr::eq(write(slot), place));
        // there is an item at the place, to which `write` has returned a reference
        unsafe { items.set_len(items.len() + 1) };
    }

    /// Adds a block that holds others, as a SEQUENCE or SET. Those behind it that are deeper are its items.
    #[inline(always)]
    pub fn open(&mut self, record: &'a Block) {
        let around = unsafe { &mut *self.items[record.depth] };
        let block = around.spare_capacity_mut()[0].as_mut_ptr();
        let (offset, inside) = (record.offset, Vec::with_capacity(record.items));
        let items = unsafe {
            match record.tag {
                17 => block.write(ASN1Block::Set(offset, inside)),
                _ => block.write(ASN1Block::Sequence(offset, inside)),
            }
            around.set_len(around.len() + 1);
            items_of(&mut *block)
        };
        if record.tag_class != 0 {
            self.attempts.push(Attempt { block, record });
        }
        self.items.truncate(record.depth + 1);
        self.items.push(items);
    }

    /// Makes another block in the place of the innermost attempt that goes on at the index. Returns its record and what
    /// stood there; `None` if there is no such attempt.
    #[cold]
    pub fn give_up(&mut self, index: usize, made: impl FnOnce(&Block) -> ASN1Block) -> Option<(&'a Block, ASN1Block)> {
        let innermost = self.attempts.iter().rposition(|attempt| attempt.record.next > index)?;
        let Attempt { block, record } = self.attempts.drain(innermost..).next()?;
        self.items.truncate(record.depth + 1);
        Some((record, mem::replace(unsafe { &mut *block }, made(record))))
    }

    /// Lends each attempt, the last first, so that none is moved before those inside it.
    pub fn finish(mut self, mut finish: impl FnMut(&mut ASN1Block, &Block)) {
        while let Some(Attempt { block, record }) = self.attempts.pop() {
            finish(unsafe { &mut *block }, record);
        }
    }
}

#[inline(always)]
fn items_of(block: &mut ASN1Block) -> &mut Vec<ASN1Block> {
    match block {
        ASN1Block::Sequence(_, items) | ASN1Block::Set(_, items) => items,
        _ => unreachable!("it is made as one of these"),
    }
}

/// The one item that a vector has room for, in the same memory.
pub(crate) fn only<T>(items: Vec<T>) -> Box<T> {
    assert_eq!(items.len(), 1, "its record has one item");
    // SAFETY: a slice of one has the layout of its item, and so does the memory of a box of each.
    unsafe { Box::from_raw(Box::into_raw(items.into_boxed_slice()).cast()) }
}
