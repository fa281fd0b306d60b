
// Lines below are appended by tests/oracle/build; above them stands the published file, unchanged.
// They only read a tree and copy it: the copy taken before a call is what a refused call goes back to.

impl Clone for Val {
    fn clone(&self) -> Self {
        match self {
            Val::Leaf(v) => Val::Leaf(v.clone()),
            Val::Child(c) => Val::Child(*c),
        }
    }
}

impl Clone for MemNode {
    fn clone(&self) -> Self {
        Self { keys: self.keys.clone(), vals: self.vals.clone(), ..*self }
    }
}

impl Clone for Tree {
    fn clone(&self) -> Self {
        Self { nodes: self.nodes.clone(), ..*self }
    }
}

impl Tree {
    /// Key count and node count as the root would store them.
    pub fn counts(&self) -> (u64, u64) {
        (self.info.key_count, self.info.node_count)
    }

    /// Nodes loaded or made since the tree was opened, dead ones too.
    pub fn slots_used(&self) -> usize {
        self.nodes.len()
    }

    pub fn fixed_lengths(&self) -> Option<(usize, usize)> {
        self.fixed
    }

    pub fn root_slot(&self) -> usize {
        self.root
    }

    pub fn root_level(&self) -> u16 {
        self.nodes[self.root].level
    }

    /// What the root takes of its data space, in percent, rounded down.
    pub fn fill(&self) -> u64 {
        let entries = self.entries_of(self.root);
        let level = self.nodes[self.root].level;
        let (used, space) = crate::btree_write::used_and_space(&self.spec(true, level, &entries, 0, 0), self.node_size);
        (used * 100 / space) as u64
    }

    /// The slots of the nodes on the way to `key`, loading what is not loaded.
    pub fn way(&mut self, rd: &dyn Reader, key: &[u8]) -> Result<Vec<usize>> {
        Ok(self.path(rd, key)?.into_iter().map(|(n, _)| n).collect())
    }

    /// Whether the node in a slot fits where it stands.
    pub fn fits_in_place(&self, n: usize) -> bool {
        self.fits_as(n == self.root, self.nodes[n].level, &self.entries_of(n))
    }

    pub fn is_dead(&self, n: usize) -> bool {
        self.nodes[n].dead
    }

    /// Whether a call changed a node's entries without marking it dirty: against the tree before the
    /// call or, for a node that the call itself loaded, against its block.
    pub fn changed_but_clean(&self, before: &Tree, c: &Container) -> bool {
        let kept = |n: usize| match before.nodes.get(n) {
            Some(old) => old.keys == self.nodes[n].keys,
            None => self.as_stored(n, c),
        };
        (0..self.nodes.len()).any(|n| !self.nodes[n].dirty && !self.nodes[n].dead && !kept(n))
    }

    fn as_stored(&self, n: usize, c: &Container) -> bool {
        let entries = self.nodes[n].paddr.and_then(|p| c.node(p).ok()?.all_entries(&self.info).ok());
        entries.is_some_and(|e| e.iter().map(|e| &e.0).eq(&self.nodes[n].keys))
    }

    /// Dirty nodes that flush would write, and how many of them have no id yet.
    pub fn dirty_reached(&self) -> (u64, u64) {
        let (mut dirty, mut without_id) = (0, 0);
        let mut todo = vec![self.root];
        while let Some(n) = todo.pop() {
            let node = &self.nodes[n];
            dirty += node.dirty as u64;
            without_id += (node.dirty && self.storage == Storage::Virtual && node.oid.is_none()) as u64;
            todo.extend(node.vals.iter().filter_map(|v| match v {
                Val::Child(Child::Mem(m)) => Some(*m),
                _ => None,
            }));
        }
        (dirty, without_id)
    }

    /// Whether a call let the root's place go down from a node that does not fit as root, with its own key or
    /// with its child's first key: document 01 cuts before, and refuses a single entry.
    pub fn unfit_root_went_down(&self, before: &Tree) -> bool {
        let anew = |n: usize| self.nodes[n].dead && before.nodes.get(n).is_none_or(|o| !o.dead);
        (0..self.nodes.len()).any(|n| anew(n) && !self.only_child_fits_as_root(n))
    }

    fn only_child_fits_as_root(&self, n: usize) -> bool {
        let mut entries = self.entries_of(n);
        let own = self.fits_as(true, self.nodes[n].level, &entries);
        if let Some(Val::Child(Child::Mem(m))) = self.nodes[n].vals.first() {
            if let Some(first) = self.nodes[*m].keys.first() {
                entries[0].0.clone_from(first);
            }
        }
        own && self.fits_as(true, self.nodes[n].level, &entries)
    }

    pub fn every_live_node_fits(&self) -> bool {
        (0..self.nodes.len()).all(|n| self.is_dead(n) || self.fits_in_place(n))
    }
}
