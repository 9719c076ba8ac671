/// How wide a field may be.
#[derive(Clone, Copy, Debug, PartialEq, Eq, Hash)]
#[non_exhaustive]
pub enum Profile {
    /// 1 to 64 bits.
    One = 1,
    /// 1 to 128 bits.
    Two = 2,
}

impl Profile {
    /// The number by which scripts and the library name the profile.
    pub const fn number(self) -> u32 {
        self as u32
    }
}
