//! Stores made by hand: blocks of tapes' final stores with bytes changed, or with rows changed.

use std::collections::BTreeMap;

use crate::blocks::{
    self, ALL, LEADER_COUNT, LENGTH, MARKS, NAME, NODES, PLACEMENTS, REPLICA_COUNT, REPLICAS,
    TABLETS, Table,
};
use crate::model::{Model, Part, Partition, PlacementRow};
use crate::near;
use crate::random::Random;

/// A block, how it was made, and commands for it.
pub struct HandMade {
    pub block: Vec<u8>,
    pub how: Vec<String>,
    pub commands: Vec<Vec<u8>>,
}

/// One from the final store of a tape.
pub fn hand_made(random: &mut Random, base: &Model) -> HandMade {
    let mut how = Vec::new();
    let block = match random.below(20) {
        0 => another_length(random, base, &mut how),
        1..=9 => bytes_changed(random, base, &mut how),
        _ => rows_changed(random, base, &mut how),
    };
    let commands = near::commands(random, base, &block);
    HandMade {
        block,
        how,
        commands,
    }
}

// ---- bytes

fn another_length(random: &mut Random, base: &Model, how: &mut Vec<String>) -> Vec<u8> {
    let mut block = blocks::bytes(base);
    let length = random.one(&[
        0,
        1,
        8,
        NODES.at,
        LENGTH / 2,
        LENGTH - 1,
        LENGTH + 1,
        2 * LENGTH,
    ]);
    block.resize(length, 0);
    how.push(format!("{length} bytes"));
    block
}

/// One to three bytes.
fn bytes_changed(random: &mut Random, base: &Model, how: &mut Vec<String>) -> Vec<u8> {
    let mut block = blocks::bytes(base);
    for _ in 0..random.between(1, 3) {
        let at = place(random, &block);
        let byte = match random.below(6) {
            0 => block[at].wrapping_add(1),
            1 => block[at].wrapping_sub(1),
            2 => 0,
            3 => random.one(&[1, 7, 8, 24, 25, 32, 33, 48, 49, 64, 65, 254, 255]),
            4 => block[place(random, &block)],
            _ => random.next() as u8,
        };
        if block[at] != byte {
            how.push(format!("byte {at}: {} to {byte}", block[at]));
            block[at] = byte;
        }
    }
    block
}

/// A place that matters to soundness, or to answers, more often than others.
fn place(random: &mut Random, block: &[u8]) -> usize {
    let table = random.one(&ALL);
    let used = table.used(block);
    match random.below(12) {
        0 => random.below(LENGTH),
        1 => table.at + random.one(&[0, 0, 0, 1, 7]),
        2 => MARKS + random.below(32),
        3 => random.one(&[NAME.at, NAME.at + 1, NAME.at + NAME.width]),
        // The first and the last byte behind the rows in use.
        4 if used < table.room => {
            let unused = table.row(used).start..table.part().end;
            random.one(&[unused.start, unused.end - 1])
        }
        _ if used == 0 => random.below(LENGTH),
        _ => {
            let any = random.below(used);
            let row = random.one(&[0, used - 1, any]);
            table.row(row).start + place_in_row(random, &table)
        }
    }
}

fn place_in_row(random: &mut Random, table: &Table) -> usize {
    let texts = table.texts();
    match random.below(8) {
        // An id.
        0 | 1 => random.below(8),
        2..=4 if !texts.is_empty() => {
            let text = random.one(&texts);
            let any = random.between(1, text.width);
            let within = random.one(&[1, text.width, any]);
            text.at + random.one(&[0, within])
        }
        5 | 6 if *table == PLACEMENTS => match random.below(4) {
            0 => REPLICA_COUNT,
            1 => LEADER_COUNT,
            2 => REPLICAS + random.below(LEADER_COUNT - REPLICAS),
            _ => 8 + random.below(8),
        },
        // Group, epoch, kind, bucket and count.
        5 | 6 if *table == TABLETS => 16 + random.below(25),
        7 => table.width - 1,
        _ => random.below(table.width),
    }
}

// ---- rows

/// One to four changes that leave a block of rows, mostly a sound one.
fn rows_changed(random: &mut Random, base: &Model, how: &mut Vec<String>) -> Vec<u8> {
    let mut model = base.clone();
    for _ in 0..random.between(1, 4) {
        let what = match random.below(16) {
            0..=2 => change_node(random, &mut model),
            3..=6 => change_tablet(random, &mut model),
            7..=11 => change_placement(random, &mut model),
            12 => change_table(random, &mut model),
            13 => change_retirement(random, &mut model),
            14 => change_name(random, &mut model),
            _ => drop_row(random, &mut model),
        };
        how.extend(what);
    }
    if random.chance(8) {
        how.push(placements_without_tablets(random, &mut model));
    }
    if random.chance(95) {
        raise_marks(&mut model);
    }
    if random.chance(15) {
        let mark = random.below(4);
        let number = model.marks.0[mark];
        model.marks.0[mark] =
            random.one(&[number.saturating_sub(1), number, u64::MAX, u64::MAX - 1]);
        how.push(format!("mark {mark}: {}", model.marks.0[mark]));
    }
    blocks::bytes(&model)
}

fn raise_marks(model: &mut Model) {
    let marks = &mut model.marks.0;
    for id in model.tables.keys() {
        marks[0] = marks[0].max(*id);
    }
    for (id, row) in &model.tablets {
        marks[1] = marks[1].max(*id);
        marks[2] = marks[2].max(row.group);
    }
    for row in model.placements.values() {
        for (id, _, _) in &row.replicas {
            marks[3] = marks[3].max(*id);
        }
    }
}

/// One of the keys of a map, if there is one.
pub fn key<K: Copy, V>(random: &mut Random, rows: &BTreeMap<K, V>) -> Option<K> {
    let keys: Vec<K> = rows.keys().copied().collect();
    random.any(&keys)
}

/// An id that means something in the store, or a limit.
fn id(random: &mut Random, model: &Model) -> u64 {
    let known = match random.below(4) {
        0 => key(random, &model.nodes),
        1 => key(random, &model.tablets),
        2 => key(random, &model.tables),
        _ => None,
    };
    known.unwrap_or_else(|| random.one(&[0, 1, 2, 3, 50, u64::MAX - 1, u64::MAX]))
}

fn bytes_of(random: &mut Random, width: usize) -> Vec<u8> {
    let byte = random.one(&[0, 1, b' ', b'a', b'~', 127, 200, 255]);
    vec![byte; random.one(&[0, 1, 2, width - 1, width])]
}

fn change_node(random: &mut Random, model: &mut Model) -> Option<String> {
    let node = key(random, &model.nodes)?;
    let other = key(random, &model.nodes)?;
    let other = model.nodes[&other].clone();
    let new_id = id(random, model);
    let mut row = model.nodes.remove(&node)?;
    let mut new = node;
    let what = match random.below(6) {
        0 | 1 => {
            row.lifecycle = random.one(&[0, 1, 2, 3, 3, 3, 4, 5, 200, 254, 255]);
            format!("lifecycle {}", row.lifecycle)
        }
        2 => {
            let field = random.below(4);
            row.endpoints[field] = match random.chance(50) {
                true => random.one(&other.endpoints),
                false => bytes_of(random, 48),
            };
            format!("endpoint {field}")
        }
        3 => {
            let domain = random.below(3);
            row.labels[domain] = match random.below(3) {
                0 => None,
                1 => other.labels[domain].clone(),
                _ => Some(bytes_of(random, 24)),
            };
            format!("label {domain}")
        }
        4 => {
            row.class = bytes_of(random, 24);
            "class".to_string()
        }
        _ => {
            new = new_id;
            format!("id {new}")
        }
    };
    model.nodes.insert(new, row);
    Some(format!("node {node}: {what}"))
}

fn change_table(random: &mut Random, model: &mut Model) -> Option<String> {
    let table = key(random, &model.tables)?;
    let held = model.tablets.values().filter(|row| row.table == table);
    let held = held.count() as u32;
    let count = random.one(&[0, 1, held, held + 1, u32::MAX]);
    model.tables.insert(table, count);
    Some(format!("table {table}: count {count}"))
}

fn change_tablet(random: &mut Random, model: &mut Model) -> Option<String> {
    let tablet = key(random, &model.tablets)?;
    let other = key(random, &model.tablets)?;
    let other = model.tablets[&other].clone();
    let new_id = id(random, model);
    let mut row = model.tablets.remove(&tablet)?;
    let mut new = tablet;
    let what = match random.below(8) {
        0 | 1 => {
            row.group = other.group;
            format!("group {}", row.group)
        }
        2 | 3 => {
            let part = Partition {
                kind: random.one(&[0, 1, 1, 2, 2, 255]),
                bucket: random.one(&[0, 1, 5, u32::MAX]),
                count: random.one(&[0, 1, 2, u32::MAX]),
                start: bytes_of(random, 32),
                end: bytes_of(random, 32),
            };
            row.part = Part::Other(part);
            format!("partition {:?}", row.part)
        }
        4 => {
            row.part = other.part;
            format!("partition {:?}", row.part)
        }
        5 => {
            row.table = match random.chance(50) {
                true => other.table,
                false => new_id,
            };
            format!("table {}", row.table)
        }
        6 => {
            row.epoch = random.one(&[0, 1, u64::MAX]);
            format!("epoch {}", row.epoch)
        }
        _ => {
            new = new_id;
            format!("id {new}")
        }
    };
    model.tablets.insert(new, row);
    Some(format!("tablet {tablet}: {what}"))
}

fn change_placement(random: &mut Random, model: &mut Model) -> Option<String> {
    let tablet = key(random, &model.placements)?;
    let some_node = key(random, &model.nodes).unwrap_or(9);
    let some_id = id(random, model);
    let mut row = model.placements.remove(&tablet)?;
    let mut new = tablet;
    let what = match random.below(10) {
        0 | 1 => {
            row.epoch = random.one(&[0, 1, u64::MAX - 1, u64::MAX, u64::MAX]);
            format!("epoch {}", row.epoch)
        }
        2..=5 if !row.replicas.is_empty() => change_replica(random, &mut row, some_node, some_id),
        6 => {
            let count = random.below(row.replicas.len() + 1);
            row.replicas.truncate(count);
            format!("{count} replicas")
        }
        7 => {
            row.factor = random.one(&[0, 1, 7, 8, u32::MAX]);
            row.minima = [0, 1, 2].map(|_| random.one(&[0, 1, 2, u32::MAX]));
            format!("factor {}, minima {:?}", row.factor, row.minima)
        }
        8 => {
            row.class = Some(bytes_of(random, 24));
            row.leaders = vec![some_node; random.below(8)];
            "class and leaders".to_string()
        }
        _ => {
            new = some_id;
            format!("tablet {new}")
        }
    };
    model.placements.insert(new, row);
    Some(format!("placement {tablet}: {what}"))
}

fn change_replica(random: &mut Random, row: &mut PlacementRow, node: u64, id: u64) -> String {
    let at = random.below(row.replicas.len());
    let other = random.below(row.replicas.len());
    match random.below(6) {
        0 | 1 => row.replicas[at].0 = row.replicas[other].0,
        2 => row.replicas[at].1 = node,
        3 => row.replicas[at].2 = random.one(&[0, 1, 2, 255]),
        4 => row.replicas[at].0 = id,
        // A number twice, on a node that stands behind the old one.
        _ if row.replicas.len() < 7 => row.replicas.push((row.replicas[at].0, node, 1)),
        _ => row.replicas[at].1 = id,
    }
    format!("replicas {:?}", row.replicas)
}

fn change_retirement(random: &mut Random, model: &mut Model) -> Option<String> {
    let tablet = key(random, &model.tablets)?;
    let group = model.tablets[&tablet].group;
    let desired = model
        .placements
        .get(&tablet)
        .map(|row| row.replicas.clone());
    let replica = random.any(&desired.unwrap_or_default());
    let replica = replica.map_or_else(|| id(random, model), |replica| replica.0);
    if model.retired.len() < 256 {
        let proof = [0, 1, 2, 3].map(|_| random.one(&[0, 1, u64::MAX]));
        model.retired.insert((group, replica), proof);
    }
    Some(format!("retired {group} {replica}"))
}

fn change_name(random: &mut Random, model: &mut Model) -> Option<String> {
    let name = bytes_of(random, 48);
    model.name = (!name.is_empty()).then_some(name);
    Some("another name".to_string())
}

fn drop_row(random: &mut Random, model: &mut Model) -> Option<String> {
    match random.below(5) {
        0 => key(random, &model.nodes).map(|id| {
            model.nodes.remove(&id);
            format!("no node {id}")
        }),
        1 => key(random, &model.tables).map(|id| {
            model.tables.remove(&id);
            format!("no table {id}")
        }),
        2 | 3 => key(random, &model.tablets).map(|id| {
            model.tablets.remove(&id);
            format!("no tablet {id}")
        }),
        _ => key(random, &model.placements).map(|id| {
            model.placements.remove(&id);
            format!("no placement {id}")
        }),
    }
}

/// As many as there is room for.
fn placements_without_tablets(random: &mut Random, model: &mut Model) -> String {
    let row = model.placements.values().next().cloned();
    let row = row.unwrap_or(PlacementRow {
        epoch: 1,
        replicas: vec![],
        factor: 0,
        minima: [0; 3],
        class: None,
        leaders: vec![],
    });
    // A tablet whose placement is a new row.
    if let Some(tablet) = key(random, &model.tablets) {
        model.placements.remove(&tablet);
    }
    let mut tablet = random.one(&[1_000_000, u64::MAX - 100]);
    while model.placements.len() < 64 {
        model.placements.insert(tablet, row.clone());
        tablet += 1;
    }
    "64 placements".to_string()
}
