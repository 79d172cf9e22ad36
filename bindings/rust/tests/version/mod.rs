/// The length of VERSION's packet.
pub const VERSION: usize = 153;
