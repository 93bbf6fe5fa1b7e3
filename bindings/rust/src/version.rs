//! Whether the library has the version that this crate needs: asked before the first call, and remembered.
use crate::answer::{Numbers, OTHER_VERSION};
use crate::calls;
use crate::declared::THAOLISEM_VERSION;
use core::sync::atomic::{AtomicU64, Ordering::Relaxed};

/// The version that the library answered; 0 before it is asked.
static ANSWERED: AtomicU64 = AtomicU64::new(0);

/// Whether the library has this crate's version.
#[inline]
pub(crate) fn same() -> bool {
    ANSWERED.load(Relaxed) == THAOLISEM_VERSION || asked()
}

/// The same where the library was not asked yet, or answered another version.
#[cold]
fn asked() -> bool {
    let version = calls::version();
    ANSWERED.store(version, Relaxed);
    version == THAOLISEM_VERSION
}

/// The numbers of a call that is not made, as the library has another version.
#[inline]
pub(crate) fn refused() -> Numbers {
    [OTHER_VERSION, 0, 0, ANSWERED.load(Relaxed), 0, 0, 0, 0]
}
