//! The switches behind `fault!`, all off unless `--fault NAME` names one.
//! `oracle/build` collects the names from the published files.
use core::sync::atomic::{AtomicUsize, Ordering};

macro_rules! names {
    ($($name:ident)*) => {
        #[derive(Clone, Copy, Debug, PartialEq, Eq)]
        pub(crate) enum Fault { $($name),* }
        /// The names, in the order of the enum.
        pub(crate) const NAMES: &[&str] = &[$(stringify!($name)),*];
    };
}
include!("fault_names.rs");

/// The place of the switch that is on, from 1; 0 for none.
static ON: AtomicUsize = AtomicUsize::new(0);

/// Whether the switch `f` is on.
pub(crate) fn on(f: Fault) -> bool {
    ON.load(Ordering::Relaxed) == f as usize + 1
}

/// Whether some switch is on.
pub(crate) fn any() -> bool {
    ON.load(Ordering::Relaxed) != 0
}

/// Turn on the switch of this name; false when there is none.
pub(crate) fn set(name: &str) -> bool {
    let place = NAMES.iter().position(|n| *n == name);
    ON.store(place.map_or(0, |p| p + 1), Ordering::Relaxed);
    place.is_some()
}

/// The draw of the fault `GlobalJitter`, which takes no draw of the caller.
pub(crate) fn global_jitter(_: u16) -> u16 {
    0
}
