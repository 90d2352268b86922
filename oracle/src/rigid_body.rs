//! Stand-in for Kapitsa's rigid bodies: the type alone.

#[derive(Clone, Copy, Debug, PartialEq, Eq)]
pub enum BodyType {
    Static,
    Kinematic,
    Dynamic,
}

impl BodyType {
    /// The type of a type byte 0 to 2.
    pub fn of(byte: u8) -> BodyType {
        match byte {
            0 => BodyType::Static,
            1 => BodyType::Kinematic,
            2 => BodyType::Dynamic,
            _ => panic!("type byte {byte}"),
        }
    }
}
