//! What both types of sets are over the library's: each owns one, and makes it before the first change.

// The type, and the calls that make its sets, copy, free and compare them.
macro_rules! handles {
    ($Set:ident of $Handle:ident, $new:ident, $clone:ident, $free:ident, $equals:ident) => {
        // SAFETY: a set is a block of malloc's and what that points to, and belongs to no thread.
        unsafe impl Send for $Set {}

        // SAFETY: a call that takes a `*const` writes nothing: its proof assumes only a shared borrow.
        unsafe impl Sync for $Set {}

        impl Drop for $Set {
            fn drop(&mut self) {
                // SAFETY: this set owns it, and does not use it again; freeing null does nothing.
                unsafe { raw::$free(self.set) }
            }
        }

        impl $Set {
            /// Creates an empty set. It allocates nothing before the first member.
            pub const fn new() -> Self {
                $Set { set: null_mut() }
            }

            // The set that a call stores.
            fn made(call: impl FnOnce(*mut *mut raw::$Handle) -> bool) -> Self {
                let mut set = null_mut();
                require(call(&mut set));
                $Set { set }
            }

            // The library's set, to read: for one that has not allocated it is an empty one that all share.
            #[inline]
            fn read(&self) -> *const raw::$Handle {
                static EMPTY: OnceLock<$Set> = OnceLock::new();
                if self.set.is_null() {
                    return EMPTY.get_or_init(Self::allocated).set;
                }
                self.set
            }

            // The library's set, to change; it is made here if there is none yet.
            #[inline]
            fn write(&mut self) -> *mut raw::$Handle {
                if self.set.is_null() {
                    *self = Self::allocated();
                }
                self.set
            }

            // An empty set of the library.
            #[cold]
            fn allocated() -> Self {
                // SAFETY: `out` is null.
                Self::made(|out| unsafe { raw::$new(out) })
            }

            // The result of a call that returns whether it changed anything.
            #[inline]
            fn changed(answer: i32) -> bool {
                require(answer >= 0);
                answer == raw::YES
            }
        }

        impl Default for $Set {
            fn default() -> Self {
                Self::new()
            }
        }

        impl Clone for $Set {
            fn clone(&self) -> Self {
                if self.set.is_null() {
                    return Self::new();
                }
                // SAFETY: `out` is null, and the set is borrowed for the call.
                Self::made(|out| unsafe { raw::$clone(out, self.set) })
            }
        }

        impl PartialEq for $Set {
            fn eq(&self, other: &Self) -> bool {
                unsafe { raw::$equals(self.read(), other.read()) }
            }
        }

        impl Eq for $Set {}

        impl fmt::Debug for $Set {
            /// Writes up to 15 members, or how many there are between the least and the greatest.
            fn fmt(&self, fmt: &mut fmt::Formatter<'_>) -> fmt::Result {
                let name = stringify!($Set);
                match (self.len(), self.min(), self.max()) {
                    (len, Some(min), Some(max)) if len > 15 => {
                        write!(fmt, "{name}<{len} values between {min} and {max}>")
                    }
                    _ => write!(fmt, "{name}<{:?}>", self.iter().collect::<Vec<_>>()),
                }
            }
        }
    };
}

pub(crate) use handles;
