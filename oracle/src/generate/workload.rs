//! Commands that suit the store they meet, and some that do not. The model says what the store holds.

use std::collections::BTreeSet;

use super::{Parts, encode};
use crate::admission::NODE_ROOM;
use crate::model::{self, Model, NodeRow, Part, PlacementRow, TabletRow};
use crate::random::Random;
use crate::tape::Answer;

/// A tape in the making.
pub struct Workload {
    pub random: Random,
    pub model: Model,
    parts: Parts,
    /// Ids that nodes, tablets and groups get.
    node_ids: Vec<u64>,
    tablet_ids: Vec<u64>,
    group_ids: Vec<u64>,
    /// For regions, zones and racks.
    labels: [Vec<Option<Vec<u8>>>; 3],
    classes: Vec<Vec<u8>>,
    /// In rising order, the empty key first.
    keys: Vec<Vec<u8>>,
    /// Whether the greatest replica number comes up; the replica mark then stays there.
    huge_replicas: bool,
    /// In a hundred commands, how many are made to miss.
    odd: usize,
    /// In a hundred commands, how many move a node on.
    moves: usize,
}

/// Some hundreds to some thousands of commands.
pub fn deep(random: Random) -> Parts {
    let mut work = Workload::new(random);
    // The store is looked at when the tape ends: some end early. A few are of several megabytes.
    let length = match work.random.below(100) {
        0..=1 => work.random.between(10_000, 30_000),
        2..=25 => work.random.between(40, 400),
        _ => work.random.between(400, 3000),
    };
    work.begin();
    for _ in 0..length {
        let command = work.command();
        work.push(command);
    }
    work.parts
}

impl Workload {
    pub fn new(mut random: Random) -> Self {
        let table_count = random.between(1, 16);
        let mut tables: Vec<(u64, u32)> = Vec::new();
        while tables.len() < table_count {
            let id = match random.below(10) {
                0 => u64::MAX - random.below(3) as u64,
                1 => random.next().max(1),
                _ => random.between(1, 40) as u64,
            };
            if tables.iter().all(|(known, _)| *known != id) {
                let count = random.one(&[1, 1, 2, 2, 3, 3, 4, 5, 8, 16, 64, 65, 256, u32::MAX]);
                tables.push((id, count));
            }
        }
        let group_mark = random.one(&[0, 1, 2, 2, 3, 50, u64::MAX - 1, u64::MAX]);
        Self::with_opening(random, group_mark, &tables)
    }

    pub fn with_opening(random: Random, group_mark: u64, tables: &[(u64, u32)]) -> Self {
        let opening = encode::opening(group_mark, tables);
        let model = model::open(&opening, &mut 0).expect("the opening is good");
        let mut work = Self::on(random, model);
        work.parts.opening = opening;
        work
    }

    /// Commands for a store that is there.
    pub fn on(mut random: Random, model: Model) -> Self {
        let labels = [b'r', b'z', b'k'].map(|letter| labels(&mut random, letter));
        Self {
            model,
            parts: Parts {
                opening: Vec::new(),
                commands: Vec::new(),
            },
            node_ids: ids(&mut random, 48),
            tablet_ids: ids(&mut random, 96),
            group_ids: ids(&mut random, 96),
            labels,
            classes: classes(&mut random),
            keys: keys(&mut random),
            huge_replicas: random.chance(15),
            odd: random.between(5, 35),
            moves: random.between(1, 12),
            random,
        }
    }

    pub fn parts(self) -> Parts {
        self.parts
    }

    /// A name, and some nodes and tablets, so that commands have something to meet.
    pub fn begin(&mut self) {
        if self.random.chance(20) {
            for _ in 0..self.random.between(1, 4) {
                let command = self.command();
                self.push(command);
            }
        }
        let name = self.name();
        self.push(encode::naming(&name));
        for _ in 0..self.random.between(0, 9) {
            let command = self.new_node();
            self.push(command);
        }
        for _ in 0..self.random.between(0, 6) {
            let command = self.new_tablet();
            self.push(command);
        }
    }

    /// Writes the command and lets the model follow.
    pub fn push(&mut self, command: Vec<u8>) -> Answer {
        let mut at = 0;
        let answer = self.model.step(&command, &mut at);
        self.parts.commands.push(command);
        answer
    }

    /// Writes bytes that no command follows.
    pub fn push_last(&mut self, bytes: Vec<u8>) {
        self.parts.commands.push(bytes);
    }

    pub fn command(&mut self) -> Vec<u8> {
        if self.random.chance(self.odd) {
            return self.odd_command();
        }
        if self.random.chance(self.moves) {
            return self.next_lifecycle();
        }
        match self.random.below(100) {
            0..=1 => encode::naming(&self.model.name.clone().unwrap_or(b"cluster".to_vec())),
            2..=13 if self.model.nodes.len() < NODE_ROOM || self.random.chance(10) => {
                self.new_node()
            }
            14..=15 => self.known_node(),
            16..=31 => self.new_tablet(),
            32..=33 => self.known_tablet(),
            2..=13 | 34..=77 => self.good_placement(),
            78..=79 => self.known_placement(),
            80..=92 => self.good_retirement(),
            93..=94 => self.known_retirement(),
            _ => encode::pick(),
        }
    }

    /// A command of this kind that the store is likely to take.
    pub fn good(&mut self, byte: u8) -> Vec<u8> {
        match byte {
            1 => encode::naming(&self.name()),
            2 => self.new_node(),
            3 => self.next_lifecycle(),
            4 => self.new_tablet(),
            5 => self.good_placement(),
            6 => self.good_retirement(),
            _ => encode::pick(),
        }
    }

    /// A command of any kind that is admitted and likely to be refused.
    fn odd_command(&mut self) -> Vec<u8> {
        match self.random.below(20) {
            0 => encode::naming(&self.name()),
            1..=3 => self.odd_node(),
            4..=5 => self.odd_lifecycle(),
            6..=9 => self.odd_tablet(),
            10..=16 => self.odd_placement(),
            _ => self.odd_retirement(),
        }
    }

    pub fn name(&mut self) -> Vec<u8> {
        self.random.one(&[
            b"cluster".to_vec(),
            b"Cluster".to_vec(),
            b"cluster ".to_vec(),
            b" ".to_vec(),
            b"x".to_vec(),
            vec![b'~'; 48],
        ])
    }

    // Nodes.

    /// An id that no node has, or any id when all are taken.
    fn free_node_id(&mut self) -> u64 {
        let free: Vec<u64> = self
            .node_ids
            .iter()
            .copied()
            .filter(|id| !self.model.nodes.contains_key(id))
            .collect();
        self.random
            .any(&free)
            .unwrap_or_else(|| self.random.next().max(1))
    }

    pub fn free_row(&mut self) -> NodeRow {
        let labels = [0, 1, 2].map(|domain: usize| {
            let values = self.labels[domain].clone();
            self.random.one(&values)
        });
        let endpoints = [0, 1, 2, 3].map(|_| self.free_endpoint());
        NodeRow {
            endpoints,
            labels,
            class: self.random.one(&self.classes.clone()),
            lifecycle: 0,
        }
    }

    /// Not used by any node yet, and not by chance by another free one.
    fn free_endpoint(&mut self) -> Vec<u8> {
        let number = self.random.next();
        let mut endpoint = format!("{}:{}", number >> 16, number & 0xFFFF).into_bytes();
        match self.random.below(6) {
            0 => endpoint.resize(48, b'!'),
            1 => endpoint.resize(47, b'~'),
            _ => {}
        }
        endpoint
    }

    pub fn new_node(&mut self) -> Vec<u8> {
        let id = self.free_node_id();
        encode::node(id, &self.free_row())
    }

    /// A node as it is stored.
    fn known_node(&mut self) -> Vec<u8> {
        match self.random_node() {
            Some((id, row)) => encode::node(id, &row),
            None => self.new_node(),
        }
    }

    fn random_node(&mut self) -> Option<(u64, NodeRow)> {
        let ids: Vec<u64> = self.model.nodes.keys().copied().collect();
        let id = self.random.any(&ids)?;
        Some((id, self.model.nodes[&id].clone()))
    }

    fn active_nodes(&self) -> Vec<u64> {
        self.model
            .nodes
            .iter()
            .filter(|(_, row)| row.lifecycle == 0)
            .map(|(id, _)| *id)
            .collect()
    }

    /// The next step of a node, by its own command or by registering it again.
    fn next_lifecycle(&mut self) -> Vec<u8> {
        let Some((id, mut row)) = self.random_node() else {
            return self.new_node();
        };
        if row.lifecycle == 0 && self.active_nodes().len() < 7 && self.random.chance(85) {
            // Some nodes have to stay.
            return self.good_placement();
        }
        row.lifecycle = (row.lifecycle + 1).min(4);
        if self.random.chance(25) {
            encode::node(id, &row)
        } else {
            encode::lifecycle(id, row.lifecycle)
        }
    }

    fn odd_lifecycle(&mut self) -> Vec<u8> {
        let to = self.random.below(5) as u8;
        match self.random_node() {
            Some((id, _)) if self.random.chance(80) => encode::lifecycle(id, to),
            _ => encode::lifecycle(self.free_node_id(), to),
        }
    }

    pub fn odd_node(&mut self) -> Vec<u8> {
        let Some((known, known_row)) = self.random_node() else {
            return self.new_node();
        };
        match self.random.below(4) {
            0 => {
                // A new node with taken endpoints.
                let id = self.free_node_id();
                let mut row = self.free_row();
                for _ in 0..self.random.between(1, 3) {
                    let (_, other) = self.random_node().expect("there is one");
                    let field = self.random.below(4);
                    let taken = self.random.one(&other.endpoints);
                    if !row.endpoints.contains(&taken) {
                        row.endpoints[field] = taken;
                    }
                }
                row.lifecycle = self.random.one(&[0, 0, 1, 4]);
                encode::node(id, &row)
            }
            1 => {
                let id = self.free_node_id();
                let mut row = self.free_row();
                row.lifecycle = self.random.between(1, 4) as u8;
                encode::node(id, &row)
            }
            2 => {
                let mut row = known_row;
                row.lifecycle = self.random.below(5) as u8;
                encode::node(known, &row)
            }
            _ => {
                // A known node with another directory.
                let fresh = self.free_row();
                let mut row = known_row;
                match self.random.below(8) {
                    field @ 0..=3 => row.endpoints[field] = fresh.endpoints[field].clone(),
                    field @ 4..=6 => {
                        let label = &mut row.labels[field - 4];
                        *label = match label {
                            None => Some(Vec::new()),
                            Some(text) if text.is_empty() => None,
                            Some(_) => fresh.labels[field - 4].clone(),
                        };
                    }
                    _ => row.class = b"other".to_vec(),
                }
                if self.random.chance(30) {
                    row.lifecycle = self.random.below(5) as u8;
                }
                encode::node(known, &row)
            }
        }
    }

    // Tablets.

    fn free_tablet_id(&mut self) -> u64 {
        let free: Vec<u64> = self
            .tablet_ids
            .iter()
            .copied()
            .filter(|id| !self.model.tablets.contains_key(id))
            .collect();
        self.random
            .any(&free)
            .unwrap_or_else(|| self.random.next().max(1))
    }

    fn free_group(&mut self) -> u64 {
        let taken: BTreeSet<u64> = self.model.tablets.values().map(|row| row.group).collect();
        let free: Vec<u64> = self
            .group_ids
            .iter()
            .copied()
            .filter(|group| !taken.contains(group))
            .collect();
        self.random
            .any(&free)
            .unwrap_or_else(|| self.random.next().max(1))
    }

    fn random_table(&mut self) -> (u64, u32) {
        let tables: Vec<(u64, u32)> = self
            .model
            .tables
            .iter()
            .map(|(id, count)| (*id, *count))
            .collect();
        // Few tables at a time, so that they fill.
        let some = tables.len().min(4);
        if self.random.chance(70) {
            self.random.any(&tables[..some]).unwrap_or((1, 1))
        } else {
            self.random.any(&tables).unwrap_or((1, 1))
        }
    }

    fn good_part(&mut self, table: u64, count: u32) -> Part {
        let held: Vec<Part> = self
            .model
            .tablets
            .values()
            .filter(|row| row.table == table)
            .map(|row| row.part.clone())
            .collect();
        if self.random.chance(45) && held.len() < count as usize {
            let mut bucket = self.random.below(count.min(70) as usize) as u32;
            if self.random.chance(10) {
                bucket = count - 1;
            }
            while held.contains(&Part::Hash(bucket, count)) {
                bucket = (bucket + 1) % count;
            }
            return Part::Hash(bucket, count);
        }
        let mut part = self.range();
        for _ in 0..12 {
            let Part::Range(start, end) = &part else {
                break;
            };
            let apart = held.iter().all(|other| match other {
                Part::Range(from, to) => {
                    (!end.is_empty() && end <= from) || (!to.is_empty() && to <= start)
                }
                _ => true,
            });
            if apart {
                break;
            }
            part = self.range();
        }
        part
    }

    /// Two keys, mostly neighbours; an end that is the empty key is unbounded.
    pub fn range(&mut self) -> Part {
        let at = self.random.below(self.keys.len());
        let after = at + 1;
        let to = match self.random.below(10) {
            0 => self.keys.len(),
            1 | 2 => self.random.between(after, self.keys.len()),
            _ => after,
        };
        let end = self.keys.get(to).cloned().unwrap_or_default();
        Part::Range(self.keys[at].clone(), end)
    }

    pub fn new_tablet(&mut self) -> Vec<u8> {
        let (table, count) = self.random_table();
        let part = self.good_part(table, count);
        let row = TabletRow {
            table,
            group: self.free_group(),
            epoch: self.random.one(&[0, 1, 1, 2, u64::MAX]),
            part,
        };
        encode::tablet(self.free_tablet_id(), &row)
    }

    fn random_tablet(&mut self) -> Option<(u64, TabletRow)> {
        let ids: Vec<u64> = self.model.tablets.keys().copied().collect();
        let id = self.random.any(&ids)?;
        Some((id, self.model.tablets[&id].clone()))
    }

    fn known_tablet(&mut self) -> Vec<u8> {
        match self.random_tablet() {
            Some((id, row)) => encode::tablet(id, &row),
            None => self.new_tablet(),
        }
    }

    pub fn odd_tablet(&mut self) -> Vec<u8> {
        let (table, count) = self.random_table();
        let mut id = self.free_tablet_id();
        let mut row = TabletRow {
            table,
            group: self.free_group(),
            epoch: 1,
            part: self.odd_part(count),
        };
        for _ in 0..self.random.below(3) {
            match self.random.below(4) {
                0 => {
                    if let Some((_, known)) = self.random_tablet() {
                        row.group = known.group;
                    }
                }
                1 => row.table = self.random.one(&[99, 1000, u64::MAX - 7]),
                2 => row.part = self.range(),
                _ => {
                    // A known id with one thing changed.
                    if let Some((known, known_row)) = self.random_tablet() {
                        id = known;
                        row = known_row;
                        match self.random.below(4) {
                            0 => row.table = self.random_table().0,
                            1 => row.group = self.free_group(),
                            2 => row.epoch = row.epoch.wrapping_add(1),
                            _ => row.part = self.range(),
                        }
                    }
                }
            }
        }
        encode::tablet(id, &row)
    }

    fn odd_part(&mut self, count: u32) -> Part {
        match self.random.below(6) {
            0 => {
                let other = [1, 2, count.saturating_add(1), count.max(2) - 1, u32::MAX];
                let other = self.random.one(&other);
                Part::Hash(self.random.below(other.min(8) as usize) as u32, other)
            }
            // A bucket that may be taken, in a table that may be filled.
            1 | 2 => Part::Hash(self.random.below(count.min(6) as usize) as u32, count),
            3 => Part::Hash(count - 1, count),
            4 => Part::Range(Vec::new(), Vec::new()),
            _ => {
                // Two keys of the list, with a byte more here and there.
                let mut start = self.random.one(&self.keys.clone());
                let mut end = self.random.one(&self.keys.clone());
                if self.random.chance(40) && start.len() < 32 {
                    start.push(self.random.one(&[0, b'a', 255]));
                }
                if self.random.chance(40) && end.len() < 32 {
                    end.push(self.random.one(&[0, b'a', 255]));
                }
                if !end.is_empty() && end < start {
                    std::mem::swap(&mut start, &mut end);
                }
                Part::Range(start, end)
            }
        }
    }

    // Placements.

    fn observed(&self, replicas: &[(u64, u64, u8)], domain: usize) -> usize {
        let labels: BTreeSet<&Vec<u8>> = replicas
            .iter()
            .filter_map(|(_, host, _)| self.model.nodes.get(host))
            .filter_map(|node| node.labels[domain].as_ref())
            .collect();
        labels.len()
    }

    fn free_replica_id(&mut self, group: u64, used: &[(u64, u64, u8)]) -> u64 {
        let mut id = match self.random.below(40) {
            0 if self.huge_replicas => u64::MAX,
            1..=12 => self.random.between(1, 60) as u64,
            _ => self.model.marks.0[3].saturating_add(1),
        };
        while self.model.retired.contains_key(&(group, id))
            || used.iter().any(|(other, _, _)| *other == id)
        {
            id = self.random.between(1, 4000) as u64;
        }
        id
    }

    /// The tablet's next placement: good unless the store has no Active node, or by bad luck.
    fn next_placement(&mut self, tablet: u64) -> PlacementRow {
        let group = self.model.tablets[&tablet].group;
        let active = self.active_nodes();
        let mut row = match self.model.placements.get(&tablet) {
            Some(stored) => PlacementRow {
                epoch: stored.epoch.wrapping_add(1),
                ..stored.clone()
            },
            None => PlacementRow {
                epoch: 1,
                replicas: Vec::new(),
                factor: 0,
                minima: [0; 3],
                class: None,
                leaders: Vec::new(),
            },
        };
        // Copies on nodes that leave go more often than others.
        let nodes = &self.model.nodes;
        let leaving: Vec<u64> = row
            .replicas
            .iter()
            .filter(|(_, host, _)| nodes.get(host).is_some_and(|node| node.lifecycle != 0))
            .map(|(id, _, _)| *id)
            .collect();
        if let Some(id) = self.random.any(&leaving)
            && self.random.chance(60)
        {
            row.replicas.retain(|(other, _, _)| *other != id);
        }
        for _ in 0..self.random.between(1, 3) {
            match self.random.below(8) {
                0..=2 => self.add_replica(group, &active, &mut row),
                3 if row.replicas.len() > 1 => {
                    let at = self.random.below(row.replicas.len());
                    row.replicas.remove(at);
                }
                4 => {
                    for replica in &mut row.replicas {
                        replica.2 = 0;
                    }
                }
                5 => self.random.shuffle(&mut row.replicas),
                6 => {
                    let count = self.random.below(4);
                    row.leaders = self.random.some(&active, count);
                }
                _ => {}
            }
        }
        if row.replicas.is_empty() {
            for _ in 0..self.random.between(1, 7) {
                self.add_replica(group, &active, &mut row);
            }
        }
        row.factor = row.replicas.len() as u32;
        if self.random.chance(85) {
            row.leaders.retain(|leader| active.contains(leader));
        }
        for domain in 0..3 {
            let observed = self.observed(&row.replicas, domain);
            if row.minima[domain] as usize > observed || self.random.chance(15) {
                row.minima[domain] = self.random.below(observed + 1) as u32;
            }
        }
        let classes: BTreeSet<Vec<u8>> = row
            .replicas
            .iter()
            .filter_map(|(_, host, _)| self.model.nodes.get(host))
            .map(|node| node.class.clone())
            .collect();
        row.class = match classes.into_iter().collect::<Vec<_>>().as_slice() {
            [class] if self.random.chance(40) => Some(class.clone()),
            _ => None,
        };
        row
    }

    fn add_replica(&mut self, group: u64, active: &[u64], row: &mut PlacementRow) {
        let hosts: Vec<u64> = active
            .iter()
            .copied()
            .filter(|id| row.replicas.iter().all(|(_, host, _)| host != id))
            .collect();
        if row.replicas.len() == 7 {
            return;
        }
        if let Some(host) = self.random.any(&hosts) {
            let id = self.free_replica_id(group, &row.replicas);
            let role = self.random.chance(25) as u8;
            let at = self.random.below(row.replicas.len() + 1);
            row.replicas.insert(at, (id, host, role));
        }
    }

    fn placed_tablet(&mut self) -> Option<u64> {
        let ids: Vec<u64> = self.model.placements.keys().copied().collect();
        self.random.any(&ids)
    }

    pub fn good_placement(&mut self) -> Vec<u8> {
        let placed = self.placed_tablet();
        let tablet = match self.random_tablet() {
            None => return self.new_tablet(),
            Some((id, _)) if placed.is_none() || self.random.chance(30) => id,
            Some(_) => placed.expect("tested"),
        };
        let row = self.next_placement(tablet);
        if row.replicas.is_empty() {
            return self.new_node();
        }
        encode::placement(tablet, &row)
    }

    fn known_placement(&mut self) -> Vec<u8> {
        match self.placed_tablet() {
            Some(tablet) => encode::placement(tablet, &self.model.placements[&tablet]),
            None => self.good_placement(),
        }
    }

    /// The stored placement, its epoch too, with at most one thing changed.
    fn nearly_known_placement(&mut self) -> Vec<u8> {
        let Some(tablet) = self.placed_tablet() else {
            return self.good_placement();
        };
        let mut row = self.model.placements[&tablet].clone();
        let at = self.random.below(row.replicas.len());
        match self.random.below(6) {
            0 => self.random.shuffle(&mut row.replicas),
            1 => self.random.shuffle(&mut row.leaders),
            2 => row.replicas[at].2 ^= 1,
            3 => row.minima[at % 3] = 0,
            4 => {
                row.class = match row.class {
                    None => Some(self.random.one(&self.classes.clone())),
                    Some(_) => None,
                }
            }
            _ => {
                row.leaders.pop();
            }
        }
        encode::placement(tablet, &row)
    }

    fn odd_placement(&mut self) -> Vec<u8> {
        if self.random.chance(20) {
            return self.nearly_known_placement();
        }
        let Some((mut tablet, _)) = self.random_tablet() else {
            return self.new_tablet();
        };
        if let Some(placed) = self.placed_tablet()
            && self.random.chance(80)
        {
            tablet = placed;
        }
        let mut row = self.next_placement(tablet);
        if row.replicas.is_empty() {
            let host = self.free_node_id();
            row.replicas.push((1, host, 0));
            row.factor = 1;
        }
        for _ in 0..self.random.one(&[1, 1, 1, 2, 3]) {
            self.spoil(&mut tablet, &mut row);
        }
        encode::placement(tablet, &row)
    }

    /// One thing wrong, in a placement that stays admitted.
    fn spoil(&mut self, tablet: &mut u64, row: &mut PlacementRow) {
        let group = self.model.tablets.get(tablet).map_or(0, |row| row.group);
        let at = self.random.below(row.replicas.len());
        let hosts: Vec<u64> = row.replicas.iter().map(|(_, host, _)| *host).collect();
        let ids: Vec<u64> = row.replicas.iter().map(|(id, _, _)| *id).collect();
        match self.random.below(13) {
            0 => *tablet = self.free_tablet_id(),
            1 => row.replicas[at].1 = self.free_node_id(),
            2 => {
                // Another host, Active or not: 26, 33 or nothing.
                let all: Vec<u64> = self.model.nodes.keys().copied().collect();
                if let Some(host) = self.random.any(&all)
                    && !hosts.contains(&host)
                {
                    row.replicas[at].1 = host;
                }
            }
            3 => {
                let (_, other) = self.random_node().unwrap_or_else(|| (0, self.free_row()));
                row.class = Some(other.class);
            }
            4 => row.class = Some(b"none has this".to_vec()),
            5 => {
                let retired: Vec<u64> = self
                    .model
                    .retired
                    .keys()
                    .filter(|(of, _)| *of == group)
                    .map(|(_, id)| *id)
                    .collect();
                if let Some(id) = self.random.any(&retired)
                    && !ids.contains(&id)
                {
                    row.replicas[at].0 = id;
                }
            }
            6 => {
                let all: Vec<u64> = self.model.nodes.keys().copied().collect();
                let count = self.random.between(1, 7);
                row.leaders = self.random.some(&all, count);
                if self.random.chance(30) && row.leaders.len() < 7 {
                    let unknown = self.free_node_id();
                    row.leaders.push(unknown);
                }
            }
            7 => {
                let domain = self.random.below(3);
                row.minima[domain] = row.factor;
            }
            8 => {
                let domain = self.random.below(3);
                let observed = self.observed(&row.replicas, domain) as u32;
                row.minima[domain] = (observed + 1).min(row.factor);
            }
            9 | 10 => {
                row.epoch = match self.random.below(5) {
                    0 => 0,
                    1 => u64::MAX,
                    2 => row.epoch.wrapping_sub(1),
                    3 => row.epoch.wrapping_add(1),
                    _ => 1,
                };
            }
            11 => {
                for replica in &mut row.replicas {
                    replica.2 = 1;
                }
            }
            _ => {
                // The old number on a new host, or two hosts exchanged.
                let other = self.random.below(row.replicas.len());
                let host = row.replicas[at].1;
                row.replicas[at].1 = row.replicas[other].1;
                row.replicas[other].1 = host;
            }
        }
    }

    // Retirements.

    fn proof(&mut self, epoch: u64) -> [u64; 4] {
        let number = |random: &mut Random| random.one(&[0, 1, 2, 77, u64::MAX]);
        let random = &mut self.random;
        [epoch, number(random), number(random), number(random)]
    }

    pub fn good_retirement(&mut self) -> Vec<u8> {
        let Some(tablet) = self.placed_tablet() else {
            return self.good_placement();
        };
        let group = self.model.tablets[&tablet].group;
        let placement = self.model.placements[&tablet].clone();
        let mark = self.model.marks.0[3];
        let mut replica = 0;
        for _ in 0..10 {
            replica = match self.random.below(4) {
                0 => self.random.between(1, 60) as u64,
                1 => mark.saturating_add(self.random.between(1, 400) as u64),
                _ => self.random.next() % mark.max(1) + 1,
            };
            let free = !self.model.retired.contains_key(&(group, replica))
                && placement.replicas.iter().all(|(id, _, _)| *id != replica);
            if free {
                break;
            }
        }
        let proof = self.proof(placement.epoch);
        encode::retirement(group, replica, proof)
    }

    fn known_retirement(&mut self) -> Vec<u8> {
        match self.random_retirement() {
            Some(((group, replica), proof)) => encode::retirement(group, replica, proof),
            None => self.good_retirement(),
        }
    }

    fn random_retirement(&mut self) -> Option<((u64, u64), [u64; 4])> {
        let keys: Vec<(u64, u64)> = self.model.retired.keys().copied().collect();
        let key = self.random.any(&keys)?;
        Some((key, self.model.retired[&key]))
    }

    pub fn odd_retirement(&mut self) -> Vec<u8> {
        let Some((tablet, row)) = self.random_tablet() else {
            return self.good_retirement();
        };
        let epoch = self
            .model
            .placements
            .get(&tablet)
            .map_or(1, |row| row.epoch);
        let proof = self.proof(epoch);
        let replica = self.random.between(1, 80) as u64;
        match self.random.below(5) {
            0 => encode::retirement(self.free_group(), replica, proof),
            1 => {
                let desired: Vec<u64> = self
                    .model
                    .placements
                    .get(&tablet)
                    .map(|row| row.replicas.iter().map(|(id, _, _)| *id).collect())
                    .unwrap_or_default();
                let replica = self.random.any(&desired).unwrap_or(replica);
                encode::retirement(row.group, replica, proof)
            }
            2 => match self.random_retirement() {
                Some(((group, replica), mut proof)) => {
                    let at = self.random.below(4);
                    proof[at] = proof[at].wrapping_add(1);
                    encode::retirement(group, replica, proof)
                }
                None => encode::retirement(row.group, replica, proof),
            },
            3 => {
                let mut proof = proof;
                proof[0] = self.random.one(&[0, epoch.wrapping_add(1), u64::MAX]);
                encode::retirement(row.group, replica, proof)
            }
            _ => encode::retirement(row.group, replica, proof),
        }
    }
}

/// Small numbers in most tapes, numbers from the whole room of 64 bits in others.
fn ids(random: &mut Random, count: usize) -> Vec<u64> {
    let wide = random.chance(30);
    let mut ids: BTreeSet<u64> = BTreeSet::new();
    while ids.len() < count {
        let id = match random.below(12) {
            0 if wide => u64::MAX - random.below(4) as u64,
            1..=5 if wide => random.next() >> random.below(64),
            _ => random.between(1, count + count / 4) as u64,
        };
        if id != 0 {
            ids.insert(id);
        }
    }
    ids.into_iter().collect()
}

fn labels(random: &mut Random, letter: u8) -> Vec<Option<Vec<u8>>> {
    let all = [
        None,
        None,
        Some(Vec::new()),
        Some(vec![letter, b'1']),
        Some(vec![letter, b'2']),
        Some(vec![letter, b'3']),
        Some(vec![letter, b'1', b' ']),
        Some(vec![b' ']),
        Some(vec![letter; 24]),
        Some(vec![letter; 23]),
    ];
    let count = random.between(1, 6);
    random.some(&all, count)
}

fn classes(random: &mut Random) -> Vec<Vec<u8>> {
    let all: [&[u8]; 7] = [
        b"ssd",
        b"hdd",
        b"ssd ",
        b" ssd",
        b"SSD",
        b"s",
        b"abcdefghijklmnopqrstuvwx",
    ];
    let count = random.one(&[1, 1, 2, 3, 5]);
    random
        .some(&all, count)
        .into_iter()
        .map(<[u8]>::to_vec)
        .collect()
}

/// Rising keys, the empty one first; many share their front, and many differ in a zero at the end only.
fn keys(random: &mut Random) -> Vec<Vec<u8>> {
    let mut keys: BTreeSet<Vec<u8>> = BTreeSet::from([
        Vec::new(),
        vec![0],
        vec![0, 0],
        b"a".to_vec(),
        b"a\0".to_vec(),
        b"aa".to_vec(),
        b"ab".to_vec(),
        b"b".to_vec(),
        vec![255],
        vec![255, 255],
        vec![255; 32],
        vec![b'a'; 32],
        vec![b'a'; 31],
        vec![0; 32],
    ]);
    let count = random.between(20, 90);
    while keys.len() < count {
        let mut key = Vec::new();
        for _ in 0..random.one(&[1, 2, 2, 3, 3, 4, 31, 32]) {
            key.push(random.one(&[0, 1, b'a', b'b', b'm', b'z', 127, 128, 254, 255]));
        }
        keys.insert(key);
    }
    let mut keys: Vec<Vec<u8>> = keys.into_iter().collect();
    if random.chance(30) {
        let count = random.between(3, 12);
        keys = random.some(&keys, count);
        keys.push(Vec::new());
        keys.sort();
        keys.dedup();
    }
    keys
}
