//! Commands that a store accepts, one after the other.
#![allow(dead_code)]

use lupinadze::*;

pub fn opening() -> Opening {
    let table = |id, tablet_count| Table {
        id: TableId(id),
        tablet_count,
    };
    Opening {
        group_mark: 1,
        tables: vec![table(5, 2), table(7, 1)],
    }
}

pub fn naming() -> Command {
    Command::Naming("plates".into())
}

pub fn node(id: u64) -> Node {
    let address = |service: &str| Text::from(format!("{service}.{id}:7000"));
    Node {
        id: NodeId(id),
        raft_addr: address("raft"),
        snapshot_addr: address("snapshot"),
        sql_addr: address("sql"),
        admin_addr: address("admin"),
        region: Some("north".into()),
        zone: Some(format!("zone {id}").into()),
        rack: None,
        storage_class: "ssd".into(),
        lifecycle: Lifecycle::Active,
    }
}

pub fn lifecycle(node: u64, to: Lifecycle) -> Command {
    Command::Lifecycle {
        node: NodeId(node),
        to,
    }
}

pub fn hash(id: u64, bucket: u32) -> Tablet {
    Tablet {
        id: TabletId(id),
        table: TableId(5),
        group: RaftGroupId(40 + id),
        epoch: 1,
        partition: Partition::Hash {
            bucket,
            bucket_count: 2,
        },
    }
}

pub fn range(id: u64, start_key: &str, end_key: &str) -> Tablet {
    Tablet {
        id: TabletId(id),
        table: TableId(7),
        group: RaftGroupId(40 + id),
        epoch: 1,
        partition: Partition::Range {
            start_key: start_key.into(),
            end_key: end_key.into(),
        },
    }
}

/// Replicas 11 and 12 on nodes 1 and 2.
pub fn placement(tablet: u64, epoch: u64) -> Placement {
    let replica = |node| Replica {
        id: ReplicaId(10 + node),
        node: NodeId(node),
        role: Role::Voter,
    };
    Placement {
        tablet: TabletId(tablet),
        epoch,
        replicas: vec![replica(1), replica(2)],
        policy: Policy {
            replication_factor: 2,
            min_distinct_regions: 1,
            min_distinct_zones: 2,
            min_distinct_racks: 0,
            required_storage_class: Some("ssd".into()),
            preferred_leaders: vec![NodeId(2)],
        },
    }
}

/// A replica of tablet 1's group.
pub fn retirement(replica: u64) -> Retirement {
    Retirement {
        group: RaftGroupId(41),
        replica: ReplicaId(replica),
        desired_epoch: 1,
        conf_state_version: 2,
        removal_index: 3,
        removal_term: 4,
    }
}

/// Commands that are all applied, in this order.
pub fn commands() -> Vec<Command> {
    vec![
        naming(),
        node(1).into(),
        node(2).into(),
        node(3).into(),
        hash(1, 0).into(),
        hash(2, 1).into(),
        range(3, "papyrus/0004", "papyrus/0009").into(),
        placement(1, 1).into(),
        placement(3, 1).into(),
        retirement(13).into(),
        lifecycle(3, Lifecycle::Draining),
    ]
}

pub fn bytes(commands: &[Command]) -> Vec<u8> {
    let mut bytes = Vec::new();
    for command in commands {
        command.push(&mut bytes).expect("it has a form");
    }
    bytes
}

/// A store with all of these commands applied.
pub fn store() -> Store {
    let mut store = Store::open(&opening()).expect("it is accepted");
    let answers = store.apply(&bytes(&commands()));
    assert_eq!(answers, vec![Answer::Applied; commands().len()]);
    store
}
