//! A record of the file: a key and its setting.

#[derive(Clone, Copy, Debug, PartialEq, Eq)]
pub struct Record {
    pub key: u32,
    pub setting: u32,
}
