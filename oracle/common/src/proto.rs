//! `metadata` is the file of docs/src; the messages that it refers to are stubs with the fields that
//! `ids` and `metadata_codec` use.

#[path = "../../../docs/src/crates/ragnordb-common/src/proto/ragnordb.metadata.rs"]
#[rustfmt::skip]
pub mod metadata;

pub mod catalog {
    #[derive(Clone, PartialEq)]
    pub struct ColumnDefinition {}

    #[derive(Clone, PartialEq)]
    pub struct TableDefinition {}
}

pub mod row {
    #[derive(Clone, PartialEq)]
    pub struct RowKey {
        pub table_id_bytes: Vec<u8>,
        pub primary_key_bytes: Vec<u8>,
    }
}

pub mod ids {
    macro_rules! numbers {
        ($($name:ident)*) => {$(
            #[derive(Clone, Copy, PartialEq)]
            pub struct $name {
                pub id: u64,
            }
        )*};
    }

    numbers! { NodeId ReplicaId TabletId TableId ColumnId TxnId Timestamp RaftGroupId }

    #[derive(Clone, PartialEq)]
    pub struct RequestId {
        pub client_id: Vec<u8>,
        pub sequence: u64,
        pub raft_group_id: Option<RaftGroupId>,
    }

    #[derive(Clone, PartialEq)]
    pub struct ClientRequestId {
        pub client_id: Vec<u8>,
        pub session_epoch: u64,
        pub request_sequence: u64,
    }

    #[derive(Clone, PartialEq)]
    pub struct LogicalCommandId {
        pub client_request_id: Option<ClientRequestId>,
        pub command_ordinal: u32,
        pub kind: i32,
    }

    #[derive(Clone, Copy, PartialEq, ::prost::Enumeration)]
    #[repr(i32)]
    pub enum CommandKind {
        Unspecified = 0,
        Read = 1,
        Prewrite = 2,
        Commit = 3,
        Rollback = 4,
        ResolveIntent = 5,
        SingleShardCommit = 6,
        Catalog = 7,
        Noop = 8,
    }
}
