/// The version of the library's interface that this crate is written for.
pub(crate) const INTERFACE: u32 = 3;
