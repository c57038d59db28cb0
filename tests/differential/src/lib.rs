//! An independent marker of documents 01 and 02, the library that it is compared with, and papers and typed texts to compare them on.

pub mod fence;
pub mod library;
pub mod marker;
pub mod papers;

/// Bytes as they are shown and written to files.
pub fn hex(bytes: &[u8]) -> String {
    bytes.iter().map(|byte| format!("{byte:02x}")).collect()
}
