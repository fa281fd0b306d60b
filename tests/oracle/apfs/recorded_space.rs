//! tree.rs sees this in the place of space.rs. It passes every call on to the published allocator and
//! keeps the freed addresses in the order they came, which the allocator itself shows nobody.

use crate::error::Result;
use crate::nx::Container;
use crate::space_manager;
use crate::write::allocator;

pub struct Space {
    inner: allocator::Space,
    pub freed: Vec<u64>,
}

impl Space {
    pub fn load(c: &Container, xid: u64) -> Result<Self> {
        Ok(Self { inner: allocator::Space::load(c, xid)?, freed: Vec::new() })
    }

    pub fn alloc(&mut self, c: &Container) -> Result<u64> {
        self.inner.alloc(c)
    }

    pub fn free(&mut self, paddr: u64) {
        self.freed.push(paddr);
        self.inner.free(paddr)
    }

    /// Bits and counts as the allocator leaves them go back into the container.
    pub fn finish(self, c: &mut Container) -> Result<()> {
        let mut writes = Vec::new();
        self.inner.finish(&mut writes, &mut 0)?;
        space_manager::take_over(c, &writes)
    }
}
