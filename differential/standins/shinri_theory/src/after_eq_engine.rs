// Follows eq_engine.rs in its own module: the map that it names, and a way in for lent classes.

mod shinri_core_map {
    use crate::types::ENodeId;
    use shinri_core::TermId;

    #[derive(Default)]
    pub struct Map(Vec<Option<ENodeId>>);

    impl Map {
        pub fn get(&self, t: TermId) -> Option<ENodeId> {
            self.0.get(t.index()).copied().flatten()
        }

        pub fn insert(&mut self, t: TermId, n: ENodeId) {
            if self.0.len() <= t.index() {
                self.0.resize(t.index() + 1, None);
            }
            self.0[t.index()] = Some(n);
        }

        pub fn truncate(&mut self, count: usize) {
            self.0.truncate(count);
        }
    }
}

/// An edge's label as lent: asserted and interface with their number, congruence with its pairs.
pub enum LentLabel {
    Asserted(u32),
    Interface(u32),
    Congruence(Vec<(u32, u32)>),
    Definitional,
}

impl EqualityEngine {
    /// The next term with its class parent, forest parent and label, set as they are and not joined. Node and term have one number;
    /// node 0 is no term. Every parent is to be lent before the engine is used.
    pub fn lend(&mut self, class_parent: u32, forest_parent: u32, label: LentLabel) {
        if self.nodes.is_empty() {
            self.lend_node(0, 0, EqJust::Definitional);
        }
        let just = match label {
            LentLabel::Asserted(n) => EqJust::Asserted(shinri_core::Lit::new(n as i32)),
            LentLabel::Interface(n) => EqJust::Interface(crate::types::InterfaceId(n)),
            LentLabel::Congruence(pairs) => {
                let start = self.cong_pairs.len() as u32;
                let len = pairs.len() as u32;
                self.cong_pairs.extend(pairs.into_iter().map(|(a, b)| (ENodeId::new(a), ENodeId::new(b))));
                EqJust::Congruence(crate::types::CongRef { start, len })
            }
            LentLabel::Definitional => EqJust::Definitional,
        };
        self.lend_node(class_parent, forest_parent, just);
    }

    fn lend_node(&mut self, class_parent: u32, forest_parent: u32, just: EqJust) {
        let n = self.nodes.len() as u32;
        // sizes serve merging alone
        self.nodes.push(ENode { parent: ENodeId::new(class_parent), size: 1 });
        self.fparent.push(ENodeId::new(forest_parent));
        self.flabel.push(just);
        self.term_to_node.insert(TermId::new(n), ENodeId::new(n));
    }

    /// Forgets the nodes of the terms above a count, for runs that are repeated on one store.
    pub fn back(&mut self, count: u32) {
        let n = count as usize + 1;
        self.nodes.truncate(n);
        self.fparent.truncate(n);
        self.flabel.truncate(n);
        self.term_to_node.truncate(n);
    }
}
