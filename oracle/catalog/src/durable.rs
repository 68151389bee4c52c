//! A stub: the durable catalog of single-node mode, by its names.

pub enum CatalogCreateOutcome {}
pub struct CatalogLogExtent;
pub struct CatalogLogRecord;
pub struct DurableCatalog;
pub struct DurableCatalogLog;
