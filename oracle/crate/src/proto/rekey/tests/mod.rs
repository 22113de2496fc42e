//! The programs over the published files, and what they share.
pub(crate) mod leaves;
pub(crate) mod lines;
pub(crate) mod play;
pub(crate) mod random;
pub(crate) mod settings;
pub(crate) mod state;
pub(crate) mod table;

/// The program `outside`.
pub(crate) fn outside() {
    super::machine::oracle::outside::main();
}
