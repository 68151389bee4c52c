//! A stub: table definitions with the fields that the catalog reads. Their protobuf form is empty,
//! reading one back is refused.

use crate::{ids::ColumnId, proto::catalog};

#[derive(Debug, Clone, Copy, PartialEq, Eq)]
pub enum DataType {
    BigInt,
}

#[derive(Debug, Clone, PartialEq)]
pub struct ColumnDefinition {
    pub column_id: ColumnId,
    pub name: String,
    pub ty: DataType,
    pub nullable: bool,
}

impl ColumnDefinition {
    pub fn to_proto(&self) -> catalog::ColumnDefinition {
        catalog::ColumnDefinition {}
    }

    pub fn from_proto(_proto: catalog::ColumnDefinition) -> Result<Self, &'static str> {
        Err("protobuf is not part of the oracle")
    }
}

#[derive(Debug, Clone, PartialEq)]
pub struct TableDefinition {
    pub table_id: u64,
    pub name: String,
    pub columns: Vec<ColumnDefinition>,
    pub primary_key_column_ids: Vec<ColumnId>,
    pub schema_version: u64,
    pub tablet_count: u32,
}

impl TableDefinition {
    pub fn to_proto(&self) -> catalog::TableDefinition {
        catalog::TableDefinition {}
    }

    pub fn from_proto(_proto: catalog::TableDefinition) -> Result<Self, &'static str> {
        Err("protobuf is not part of the oracle")
    }
}
