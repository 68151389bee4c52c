//! Openings and commands as tape bytes. What is given is written, whether admitted or not.

use crate::model::{NodeRow, Part, PlacementRow, TabletRow};

pub fn opening(group_mark: u64, tables: &[(u64, u32)]) -> Vec<u8> {
    let mut bytes = vec![tables.len() as u8];
    long(&mut bytes, group_mark);
    for (id, count) in tables {
        long(&mut bytes, *id);
        short(&mut bytes, *count);
    }
    bytes
}

pub fn naming(name: &[u8]) -> Vec<u8> {
    let mut bytes = vec![1];
    text(&mut bytes, name, 48);
    bytes
}

pub fn node(id: u64, row: &NodeRow) -> Vec<u8> {
    let mut bytes = vec![2];
    long(&mut bytes, id);
    for endpoint in &row.endpoints {
        text(&mut bytes, endpoint, 48);
    }
    for label in &row.labels {
        maybe(&mut bytes, label);
    }
    text(&mut bytes, &row.class, 24);
    bytes.push(row.lifecycle);
    bytes
}

pub fn lifecycle(node: u64, to: u8) -> Vec<u8> {
    let mut bytes = vec![3];
    long(&mut bytes, node);
    bytes.push(to);
    bytes
}

pub fn tablet(id: u64, row: &TabletRow) -> Vec<u8> {
    let mut bytes = vec![4];
    for number in [id, row.table, row.group, row.epoch] {
        long(&mut bytes, number);
    }
    let (kind, bucket, count, start, end) = match &row.part {
        Part::Hash(bucket, count) => (0, *bucket, *count, &[][..], &[][..]),
        Part::Range(start, end) => (1, 0, 0, &start[..], &end[..]),
        Part::Other(part) => (
            part.kind,
            part.bucket,
            part.count,
            &part.start[..],
            &part.end[..],
        ),
    };
    bytes.push(kind);
    short(&mut bytes, bucket);
    short(&mut bytes, count);
    text(&mut bytes, start, 32);
    text(&mut bytes, end, 32);
    bytes
}

pub fn placement(tablet: u64, row: &PlacementRow) -> Vec<u8> {
    let mut bytes = vec![5];
    long(&mut bytes, tablet);
    long(&mut bytes, row.epoch);
    bytes.push(row.replicas.len() as u8);
    for place in 0..7 {
        let (id, host, role) = row.replicas.get(place).copied().unwrap_or((0, 0, 0));
        long(&mut bytes, id);
        long(&mut bytes, host);
        bytes.push(role);
    }
    short(&mut bytes, row.factor);
    for minimum in row.minima {
        short(&mut bytes, minimum);
    }
    maybe(&mut bytes, &row.class);
    bytes.push(row.leaders.len() as u8);
    for place in 0..7 {
        long(&mut bytes, row.leaders.get(place).copied().unwrap_or(0));
    }
    bytes
}

pub fn retirement(group: u64, replica: u64, proof: [u64; 4]) -> Vec<u8> {
    let mut bytes = vec![6];
    long(&mut bytes, group);
    long(&mut bytes, replica);
    for number in proof {
        long(&mut bytes, number);
    }
    bytes
}

pub fn pick() -> Vec<u8> {
    vec![7]
}

fn long(bytes: &mut Vec<u8>, number: u64) {
    bytes.extend(number.to_le_bytes());
}

fn short(bytes: &mut Vec<u8>, number: u32) {
    bytes.extend(number.to_le_bytes());
}

fn maybe(bytes: &mut Vec<u8>, label: &Option<Vec<u8>>) {
    match label {
        Some(label) => text(bytes, label, 24),
        None => {
            bytes.push(255);
            bytes.extend([0; 24]);
        }
    }
}

fn text(bytes: &mut Vec<u8>, content: &[u8], width: usize) {
    assert!(content.len() <= width);
    bytes.push(content.len() as u8);
    bytes.extend(content);
    bytes.resize(bytes.len() + width - content.len(), 0);
}
