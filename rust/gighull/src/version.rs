/// The version of the C interface that this crate is written for: the header's
/// constant.
pub const INTERFACE_VERSION: u32 = 5;
