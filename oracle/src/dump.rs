//! The last store as text: what `--dump` prints after the lines.

use std::fmt::Write;

use ragnordb_catalog::{Catalog, MetadataState};
use ragnordb_common::metadata_codec::{
    DesiredReplicaPlacement, DesiredReplicaRole, NodeDescriptor, NodeLifecycle, PartitionSpec,
    TabletDescriptor,
};

/// The store of an opening that was refused or cut.
const NO_STORE: &str = "name -\nmarks 0 0 0 0\nnext replica 1\npick -\n";

pub fn dump(store: Option<&MetadataState>) -> String {
    let Some(state) = store else {
        return NO_STORE.to_string();
    };
    let mut lines = vec![format!("name {}", optional(state.cluster_id()))];
    lines.extend(state.nodes().map(node_line));
    for table in state.list_tables() {
        let complete = state.tablets_for_table(table.id).len() == table.tablet_count as usize;
        let word = if complete { "complete" } else { "incomplete" };
        lines.push(format!(
            "table {} {} - {word}",
            table.id.0, table.tablet_count
        ));
    }
    lines.extend(state.tablets().map(tablet_line));
    lines.extend(state.reach_placements().map(placement_line));
    for retired in state.reach_retired() {
        lines.push(format!(
            "retired {} {} {} {} {} {}",
            retired.raft_group_id.0,
            retired.replica_id.0,
            retired.desired_configuration_epoch,
            retired.removed_conf_state_version,
            retired.removal_index,
            retired.removal_term
        ));
    }
    let marks = state.allocator_state();
    lines.push(format!(
        "marks {} {} {} {}",
        marks.max_table_id, marks.max_tablet_id, marks.max_raft_group_id, marks.max_replica_id
    ));
    lines.push(match state.next_replica_id() {
        Some(replica) => format!("next replica {}", replica.0),
        None => "next replica -".to_string(),
    });
    lines.push(pick_line(state));
    lines.join("\n") + "\n"
}

fn node_line(node: &NodeDescriptor) -> String {
    let texts = [
        Some(node.raft_addr.as_str()),
        Some(&node.snapshot_addr),
        Some(&node.sql_addr),
        Some(&node.admin_addr),
        node.region.as_deref(),
        node.zone.as_deref(),
        node.rack.as_deref(),
        Some(&node.storage_class),
    ];
    let texts = texts.map(optional).join(" ");
    format!(
        "node {} {texts} {}",
        node.node_id.0,
        lifecycle_number(node.lifecycle)
    )
}

fn tablet_line(tablet: &TabletDescriptor) -> String {
    let partition = match &tablet.partition {
        PartitionSpec::Hash {
            bucket,
            bucket_count,
        } => format!("hash {bucket} {bucket_count}"),
        PartitionSpec::Range { start_key, end_key } => {
            format!("range {} {}", hexadecimal(start_key), hexadecimal(end_key))
        }
    };
    format!(
        "tablet {} {} {} {} {partition}",
        tablet.tablet_id.0, tablet.table_id.0, tablet.raft_group_id.0, tablet.tablet_epoch
    )
}

fn placement_line(placement: &DesiredReplicaPlacement) -> String {
    let mut line = format!(
        "placement {} {} replicas",
        placement.tablet_id.0, placement.configuration_epoch
    );
    for replica in &placement.replicas {
        let role = match replica.role {
            DesiredReplicaRole::Voter => 0,
            DesiredReplicaRole::Learner => 1,
        };
        let _ = write!(
            line,
            " {}:{}:{role}",
            replica.replica_id.0, replica.node_id.0
        );
    }
    let policy = &placement.placement_policy;
    let _ = write!(
        line,
        " factor {} minima {} {} {} class {} leaders",
        policy.replication_factor,
        policy.min_distinct_regions,
        policy.min_distinct_zones,
        policy.min_distinct_racks,
        optional(policy.required_storage_class.as_deref())
    );
    for leader in &policy.preferred_leader_nodes {
        let _ = write!(line, " {}", leader.0);
    }
    line
}

fn pick_line(state: &MetadataState) -> String {
    let Some((nodes, policy)) = state.reach_initial_placement() else {
        return "pick -".to_string();
    };
    let mut line = "pick".to_string();
    for node in nodes {
        let _ = write!(line, " {}", node.0);
    }
    let _ = write!(
        line,
        " factor {} minima {} {} {} class {} leaders {}",
        policy.replication_factor,
        policy.min_distinct_regions,
        policy.min_distinct_zones,
        policy.min_distinct_racks,
        optional(policy.required_storage_class.as_deref()),
        policy.preferred_leader_nodes.len()
    );
    line
}

fn lifecycle_number(lifecycle: NodeLifecycle) -> u8 {
    match lifecycle {
        NodeLifecycle::Active => 0,
        NodeLifecycle::Draining => 1,
        NodeLifecycle::Decommissioning => 2,
        NodeLifecycle::Decommissioned => 3,
        NodeLifecycle::Tombstoned => 4,
    }
}

fn optional(text: Option<&str>) -> String {
    text.map_or("-".to_string(), |text| hexadecimal(text.as_bytes()))
}

fn hexadecimal(bytes: &[u8]) -> String {
    let mut text = "=".to_string();
    for byte in bytes {
        let _ = write!(text, "{byte:02x}");
    }
    text
}
