//! Named by testutil.rs for key pairs, which no call of the oracle makes.
pub struct SecretKey;
pub struct Keypair;
impl SecretKey {
    pub fn from_slice(_: &[u8]) -> Result<Self, ()> {
        unreachable!()
    }
}
impl Keypair {
    pub fn from_secret_key(_: (), _: &SecretKey) -> Self {
        unreachable!()
    }
}
