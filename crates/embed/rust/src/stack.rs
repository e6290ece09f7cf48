//! Sizes of a thread's stack, in bytes, with which an operation ends; each has room to spare. Those of causes.h.

/// For reading.
pub const READ: usize = 32_768;

/// For settling.
pub const SETTLE: usize = 32_768;

/// For the question.
pub const QUESTION: usize = 49_152;

/// For the layers.
pub const LAYERS: usize = 32_768;

/// For writing a case back.
pub const WRITE: usize = 32_768;

/// For the report.
pub const REPORT: usize = 131_072;

/// For generating a load.
pub const GENERATE: usize = 32_768;
