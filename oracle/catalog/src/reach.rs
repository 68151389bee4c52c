//! A child of metadata.rs: public names for what is private there. Every method hands its operands on
//! as they are and decides nothing.

use ragnordb_common::catalog_codec::{ColumnDefinition, DataType};
use ragnordb_common::ids::ColumnId;

use super::*;

impl MetadataState {
    /// A store with these tables, as `apply_create_table` makes them, and this group mark.
    ///
    /// The table handler asks for a cluster name, so one is there while it runs.
    pub fn open(tables: &[(u64, u32)], group_mark: u64) -> Self {
        let mut state = Self::new();
        state.cluster_id = Some(String::new());
        for (table_id, tablet_count) in tables {
            let outcome = state.apply_create_table(TableDefinition {
                table_id: *table_id,
                name: format!("table {table_id}"),
                columns: vec![ColumnDefinition {
                    column_id: ColumnId(1),
                    name: "key".to_string(),
                    ty: DataType::BigInt,
                    nullable: false,
                }],
                primary_key_column_ids: vec![ColumnId(1)],
                schema_version: 1,
                tablet_count: *tablet_count,
            });
            assert_eq!(outcome, MetadataApplyOutcome::Applied);
        }
        state.cluster_id = None;
        state.allocator.max_raft_group_id = group_mark;
        state
    }

    pub fn reach_cluster_initialized(&mut self, cluster_id: String) -> MetadataApplyOutcome {
        self.apply_cluster_initialized(cluster_id)
    }

    pub fn reach_register_node(&mut self, node: NodeDescriptor) -> MetadataApplyOutcome {
        self.apply_register_node(node)
    }

    pub fn reach_set_node_lifecycle(
        &mut self,
        node_id: NodeId,
        lifecycle: NodeLifecycle,
    ) -> MetadataApplyOutcome {
        self.apply_set_node_lifecycle(node_id, lifecycle)
    }

    pub fn reach_create_tablet(&mut self, tablet: TabletDescriptor) -> MetadataApplyOutcome {
        self.apply_create_tablet(tablet)
    }

    pub fn reach_desired_placement(
        &mut self,
        placement: DesiredReplicaPlacement,
    ) -> MetadataApplyOutcome {
        self.apply_desired_placement(placement)
    }

    pub fn reach_replica_retirement(
        &mut self,
        retirement: RetiredReplicaLifetime,
    ) -> MetadataApplyOutcome {
        self.apply_replica_retirement(retirement)
    }

    pub fn reach_placements(&self) -> impl Iterator<Item = &DesiredReplicaPlacement> {
        self.desired_placements.values()
    }

    pub fn reach_retired(&self) -> impl Iterator<Item = &RetiredReplicaLifetime> {
        self.retired_replicas.values()
    }

    pub fn reach_initial_placement(&self) -> Option<(Vec<NodeId>, PlacementPolicy)> {
        select_initial_placement(&self.nodes)
    }

    pub fn reach_ranges_overlap(
        left_start: &[u8],
        left_end: &[u8],
        right_start: &[u8],
        right_end: &[u8],
    ) -> bool {
        ranges_overlap(left_start, left_end, right_start, right_end)
    }
}
