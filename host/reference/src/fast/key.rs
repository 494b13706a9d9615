//! One receive key.

use super::window::Window;
use crate::raw::RawKey;
use crate::setting::Iv;

/// The IV of a key and its window.
#[derive(Clone, Copy, Debug, Default, PartialEq, Eq)]
pub(super) struct Key {
    pub(super) iv: Iv,
    pub(super) window: Window,
}

impl Key {
    /// A key with an empty window.
    #[inline]
    pub(super) fn new(iv: Iv) -> Self {
        Key {
            iv,
            window: Window::default(),
        }
    }

    /// Whether every field is zero, as where no old key is held.
    #[inline]
    pub(super) fn is_zero(&self) -> bool {
        self.iv == [0; 12] && self.window.is_zero()
    }
}

impl From<RawKey> for Key {
    #[inline]
    fn from(raw: RawKey) -> Self {
        let RawKey { iv, next, marks } = raw;
        Key {
            iv,
            window: Window { next, marks },
        }
    }
}

impl From<Key> for RawKey {
    #[inline]
    fn from(key: Key) -> Self {
        let Window { next, marks } = key.window;
        RawKey {
            iv: key.iv,
            next,
            marks,
        }
    }
}
