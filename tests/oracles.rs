//! The oracles, declared once; no test or benchmark uses all of them. They stand beside this file,
//! not in a folder of its name, so that it is declared with its path.

#![allow(dead_code)]

pub mod device_oracle;
pub mod frame_oracle;
pub mod link_oracle;
pub mod list_oracle;
pub mod master_oracle;
pub mod party_oracle;
pub mod tick_oracle;
