//! The Rust codec, built unchanged, and its answers as numbers.
//!
//! `build.sh` copies the Rust files to `target/oracle/rust`.

#[allow(dead_code)]
#[path = "../../../target/oracle/rust/api.rs"]
pub mod api;
#[allow(dead_code, unexpected_cfgs)]
#[path = "../../../target/oracle/rust/decoder.rs"]
pub mod decoder;
#[allow(dead_code, unexpected_cfgs)]
#[path = "../../../target/oracle/rust/encoder.rs"]
pub mod encoder;
#[allow(dead_code)]
#[path = "../../../target/oracle/rust/error.rs"]
pub mod error;
#[allow(dead_code)]
#[path = "../../../target/oracle/rust/ext.rs"]
pub mod ext;
#[allow(dead_code)]
#[path = "../../../target/oracle/rust/header.rs"]
pub mod header;
#[allow(dead_code)]
#[path = "../../../target/oracle/rust/image.rs"]
pub mod image;
#[allow(dead_code)]
#[path = "../../../target/oracle/rust/limits.rs"]
pub mod limits;
#[allow(dead_code)]
#[path = "../../../target/oracle/rust/mbi.rs"]
pub mod mbi;
#[allow(dead_code)]
#[path = "../../../target/oracle/rust/options.rs"]
pub mod options;
#[allow(dead_code)]
#[path = "../../../target/oracle/rust/quantize.rs"]
pub mod quantize;

pub use error::WbmpError;

pub mod answer;
pub mod cards;
pub mod decode_lists;
pub mod encode_lists;
pub mod encoders;
pub mod files;
pub mod lists;
pub mod numbers;
pub mod planes;
pub mod readers;
pub mod replay;
pub mod scans;
pub mod settings;
pub mod writers;

// For tools outside this crate.
pub mod calls;
