//! Stand-in: names that mod.rs hands on and no call here uses.
pub struct NodeKeys;
pub struct NoiseKeys;
pub struct RecvCopy;
pub struct SendCopy;
