//! Commands for stores made by hand: about what is stored, and most of all about what was changed.

use std::collections::BTreeMap;

use crate::alter::key;
use crate::blocks::Asked;
use crate::generate::encode;
use crate::generate::workload::Workload;
use crate::model::{Model, NodeRow, Part, Partition, PlacementRow, TabletRow};
use crate::random::Random;

/// One of each kind and some more, as the block's rows suggest them, or the tape's where the block is not sound.
pub fn commands(random: &mut Random, base: &Model, block: &[u8]) -> Vec<Vec<u8>> {
    let asked = Asked::new(block);
    let model = asked.model().unwrap_or(base);
    let mut kinds: Vec<u8> = (1..=7).collect();
    for _ in 0..random.between(0, 10) {
        kinds.push(random.one(&[2, 3, 3, 4, 4, 5, 5, 5, 5, 5, 6]));
    }
    random.shuffle(&mut kinds);
    let mut work = Workload::on(Random::new(random.next()), base.clone());
    let mut near = Near::new(random, base, model);
    kinds
        .into_iter()
        .map(|kind| match near.random.chance(20) {
            true => work.good(kind),
            false => near.command(kind),
        })
        .collect()
}

struct Near<'a> {
    random: &'a mut Random,
    model: &'a Model,
    /// Nodes and tablets with rows that were changed.
    nodes: Vec<u64>,
    tablets: Vec<u64>,
}

/// The keys of rows that are not what they were.
fn changed<V: PartialEq>(before: &BTreeMap<u64, V>, now: &BTreeMap<u64, V>) -> Vec<u64> {
    let keys = before.keys().chain(now.keys());
    let mut keys: Vec<u64> = keys
        .filter(|key| before.get(key) != now.get(key))
        .copied()
        .collect();
    keys.dedup();
    keys
}

impl<'a> Near<'a> {
    fn new(random: &'a mut Random, base: &Model, model: &'a Model) -> Self {
        let mut tablets = changed(&base.tablets, &model.tablets);
        tablets.extend(changed(&base.placements, &model.placements));
        // Placements that were added for tablets that are not there are many.
        tablets.retain(|tablet| model.tablets.contains_key(tablet) || random.chance(20));
        Self {
            random,
            model,
            nodes: changed(&base.nodes, &model.nodes),
            tablets,
        }
    }

    /// A node that was changed, or any.
    fn node(&mut self) -> u64 {
        let changed = self
            .random
            .any(&self.nodes)
            .filter(|_| self.random.chance(60));
        changed
            .or_else(|| key(self.random, &self.model.nodes))
            .unwrap_or(1)
    }

    /// A tablet that was changed, or any.
    fn tablet(&mut self) -> u64 {
        let changed = self
            .random
            .any(&self.tablets)
            .filter(|_| self.random.chance(75));
        let any = match self.random.chance(50) {
            true => key(self.random, &self.model.placements),
            false => key(self.random, &self.model.tablets),
        };
        changed.or(any).unwrap_or(1)
    }

    /// A command of this kind, mostly admitted.
    fn command(&mut self, kind: u8) -> Vec<u8> {
        match kind {
            1 => {
                let name = self.model.name.clone().filter(|_| self.random.chance(50));
                encode::naming(&name.unwrap_or(b"plates".to_vec()))
            }
            2 => self.registering(),
            3 => {
                let node = self.node();
                let at = self.model.nodes.get(&node).map_or(0, |row| row.lifecycle);
                let next = at.saturating_add(1);
                encode::lifecycle(node, self.random.one(&[0, at, next, next, next, 4]))
            }
            4 => self.new_tablet(),
            5 => self.placement(),
            6 => self.retirement(),
            _ => encode::pick(),
        }
    }

    /// An id that is most likely new.
    fn new_id(&mut self) -> u64 {
        self.random.next() >> self.random.below(64) | 1
    }

    fn registering(&mut self) -> Vec<u8> {
        let node = self.node();
        let stored = self.model.nodes.get(&node).cloned();
        let number = self.random.next();
        let mut row = NodeRow {
            endpoints: [0, 1, 2, 3].map(|field| format!("e{field}.{number}").into_bytes()),
            labels: [Some(b"r1".to_vec()), None, Some(Vec::new())],
            class: b"ssd".to_vec(),
            lifecycle: 0,
        };
        let mut id = self.new_id();
        match stored {
            Some(stored) if self.random.chance(60) => {
                id = node;
                row = stored;
            }
            Some(stored) if self.random.chance(40) => {
                let taken = self.random.one(&stored.endpoints);
                row.endpoints[self.random.below(4)] = taken;
            }
            _ => {}
        }
        if self.random.chance(50) {
            let next = row.lifecycle.saturating_add(1);
            row.lifecycle = self.random.one(&[0, row.lifecycle, next]);
        }
        encode::node(id, &row)
    }

    fn new_tablet(&mut self) -> Vec<u8> {
        let id = self.tablet();
        let stored = self.model.tablets.get(&id);
        if let Some(stored) = stored.filter(|_| self.random.chance(25)) {
            return encode::tablet(id, stored);
        }
        let table = key(self.random, &self.model.tables).unwrap_or(1);
        // Beside what is stored in a table, whatever its kind is.
        let beside = stored.filter(|_| self.random.chance(60));
        let table = beside.map_or(table, |row| row.table);
        let count = self.model.tables.get(&table).copied().unwrap_or(1);
        let part = match beside.map(|row| &row.part) {
            Some(Part::Other(Partition { bucket, .. }) | Part::Hash(bucket, _))
                if self.random.chance(60) =>
            {
                Part::Hash((*bucket).min(count.saturating_sub(1)), count)
            }
            Some(range @ Part::Range(..)) if self.random.chance(40) => range.clone(),
            _ if self.random.chance(30) => Part::Hash(self.random.below(4) as u32, count),
            _ => self.range(),
        };
        let group = match stored {
            Some(stored) if self.random.chance(10) => stored.group,
            _ => self.new_id(),
        };
        let row = TabletRow {
            table,
            group,
            epoch: 1,
            part,
        };
        encode::tablet(self.new_id(), &row)
    }

    fn range(&mut self) -> Part {
        let keys: [&[u8]; 7] = [b"", &[0], b"a", b"a\0", b"b", &[255], &[255; 32]];
        let (start, end) = (self.random.one(&keys), self.random.one(&keys));
        match start < end || end.is_empty() {
            true => Part::Range(start.to_vec(), end.to_vec()),
            false => Part::Range(end.to_vec(), start.to_vec()),
        }
    }

    /// The next of the stored one, with a few things changed.
    fn placement(&mut self) -> Vec<u8> {
        let tablet = self.tablet();
        let stored = self.model.placements.get(&tablet);
        let mut row = stored.cloned().unwrap_or(PlacementRow {
            epoch: 0,
            replicas: vec![],
            factor: 0,
            minima: [0; 3],
            class: None,
            leaders: vec![],
        });
        if self.random.chance(90) {
            row.epoch = row.epoch.wrapping_add(1);
        }
        if self.random.chance(70) {
            self.make_eligible(&mut row);
        }
        for _ in 0..self.random.below(3) {
            let node = key(self.random, &self.model.nodes).unwrap_or(1);
            let mark = self.model.marks.0[3];
            let replica = self.random.one(&[1, 2, 77, mark.saturating_add(1)]);
            let at = self.random.below(row.replicas.len().max(1));
            match self.random.below(5) {
                0 => row.replicas.push((replica, node, 0)),
                1 => row.replicas.insert(0, (replica, node, 1)),
                2 if !row.replicas.is_empty() => row.replicas[at].1 = node,
                3 if !row.replicas.is_empty() => row.replicas[at].2 = 1,
                _ => row.leaders.push(node),
            }
        }
        if self.random.chance(95) {
            self.admit(&mut row);
        }
        row.replicas.truncate(7);
        row.leaders.truncate(7);
        encode::placement(tablet, &row)
    }

    /// Leaves out what is refused for its nodes.
    fn make_eligible(&mut self, row: &mut PlacementRow) {
        let nodes = &self.model.nodes;
        row.replicas
            .retain(|(_, node, _)| nodes.get(node).is_some_and(|node| node.lifecycle < 3));
        row.leaders
            .retain(|node| nodes.get(node).is_some_and(|node| node.lifecycle == 0));
        row.class = None;
        let mut active = nodes.iter().filter(|(_, node)| node.lifecycle == 0);
        if row.replicas.is_empty()
            && let Some((node, _)) = active.next()
        {
            row.replicas
                .push((self.model.marks.0[3].saturating_add(1), *node, 0));
        }
    }

    /// Leaves out what admission refuses.
    fn admit(&mut self, row: &mut PlacementRow) {
        let mut replicas: Vec<(u64, u64, u8)> = Vec::new();
        for (id, node, role) in &row.replicas {
            let twice = |known: &(u64, u64, u8)| known.0 == *id || known.1 == *node;
            if !replicas.iter().any(twice) && *id != 0 && *node != 0 {
                replicas.push((*id, *node, (*role).min(1)));
            }
        }
        if replicas.is_empty() {
            replicas.push((1, 1, 0));
        }
        replicas.truncate(7);
        row.factor = replicas.len() as u32;
        row.replicas = replicas;
        let most = self.random.one(&[0, 0, 1, row.factor]);
        row.minima = row.minima.map(|minimum| minimum.min(most));
        if self.random.chance(20) {
            row.minima[self.random.below(3)] = most;
        }
        let printed = |class: &Vec<u8>| class.iter().all(|byte| (0x21..0x7F).contains(byte));
        let class = row.class.take();
        row.class = class.filter(|class| !class.is_empty() && printed(class));
        let mut leaders = Vec::new();
        for leader in &row.leaders {
            if *leader != 0 && !leaders.contains(leader) {
                leaders.push(*leader);
            }
        }
        row.leaders = leaders;
    }

    fn retirement(&mut self) -> Vec<u8> {
        let stored = key(self.random, &self.model.retired);
        if let Some((group, replica)) = stored.filter(|_| self.random.chance(30)) {
            let mut proof = self.model.retired[&(group, replica)];
            if self.random.chance(30) {
                proof[self.random.below(4)] ^= 1;
            }
            return encode::retirement(group, replica, proof);
        }
        let tablet = self.tablet();
        let group = self.model.tablets.get(&tablet).map_or(1, |row| row.group);
        // The group's first tablet may be another one.
        let first = self
            .model
            .tablets
            .iter()
            .find(|(_, row)| row.group == group);
        let first = self
            .random
            .one(&[tablet, first.map_or(tablet, |(id, _)| *id)]);
        let placement = self.model.placements.get(&first);
        let epoch = placement.map_or(1, |row| row.epoch);
        let desired = placement.map(|row| row.replicas.clone());
        let replica = match self.random.any(&desired.unwrap_or_default()) {
            Some((id, _, _)) if self.random.chance(40) => id,
            _ => self.random.between(1, 100) as u64,
        };
        let epoch = self.random.one(&[epoch, epoch, epoch, 1]);
        encode::retirement(group, replica, [epoch, 1, 2, 3])
    }
}
