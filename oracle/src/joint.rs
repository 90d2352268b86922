//! Stand-in for Kapitsa's joints: the endpoints and the enabled flag.

pub struct JointConstraint {
    pub joint: Joint,
    pub body_a: usize,
    pub body_b: usize,
}

pub struct Joint {
    pub common: Common,
}

pub struct Common {
    pub enabled: bool,
}

impl Joint {
    pub fn common(&self) -> &Common {
        &self.common
    }
}
