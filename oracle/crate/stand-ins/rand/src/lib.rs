//! Named by testutil.rs for random keys, which no call of the oracle makes.
pub trait Rng {
    fn fill_bytes(&mut self, _: &mut [u8]) {
        unreachable!()
    }
}
impl Rng for () {}
pub fn rng() {}
