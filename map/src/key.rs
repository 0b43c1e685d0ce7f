//! What tells keys apart in a map that keeps none.
use std::borrow::Cow;
use std::cmp::{Ordering, Reverse};
use std::ffi::{CStr, CString, OsStr, OsString};
use std::hash::{Hash, Hasher};
use std::net::{IpAddr, Ipv4Addr, Ipv6Addr, SocketAddr, SocketAddrV4, SocketAddrV6};
use std::num::{
    NonZeroI128, NonZeroI16, NonZeroI32, NonZeroI64, NonZeroI8, NonZeroIsize, NonZeroU128, NonZeroU16, NonZeroU32, NonZeroU64,
    NonZeroU8, NonZeroUsize, Wrapping,
};
use std::rc::Rc;
use std::sync::Arc;
use std::thread::ThreadId;
use std::time::{Duration, Instant, SystemTime};

/// A key of a [`Map`](crate::Map), which keeps no keys: two keys of a type that write the same are one key to it.
///
/// std's types have it, but for those whose `Hash` writes less than their `Eq` compares, as `Path` and `TypeId`. For a struct or an enum,
/// [`key!`](crate::key) writes it. For a type of another crate, see [`Hashed`]. By hand, for a name whose letters count without their case:
///
/// ```
/// use cefrodil_map::{Key, Map};
/// use std::hash::Hasher;
///
/// struct Name(String);
///
/// impl Key for Name {
///     fn write<H: Hasher>(&self, to: &mut H) {
///         self.0.to_lowercase().write(to);
///     }
/// }
///
/// let ages = Map::<Name, u64>::new(1000)?;
/// ages.insert(&Name("Ann".into()), 41)?;
/// assert_eq!(ages.get(&Name("ann".into())), Some(41));
/// # Ok::<(), Box<dyn std::error::Error>>(())
/// ```
///
/// A `Hash` is not enough, since it may write less than tells keys apart:
///
/// ```compile_fail,E0277
/// #[derive(PartialEq, Eq)]
/// struct Name(String);
/// impl std::hash::Hash for Name {
///     fn hash<H: std::hash::Hasher>(&self, to: &mut H) {
///         to.write_usize(self.0.len());
///     }
/// }
/// let _ = cefrodil_map::Map::<Name, u64>::new(1000)?.get(&Name("ann".into()));
/// # Ok::<(), Box<dyn std::error::Error>>(())
/// ```
#[diagnostic::on_unimplemented(
    message = "`{Self}` is no key of a `Map`",
    label = "a `Map` keeps no keys, so it must know that all of a key is hashed",
    note = "for a struct or an enum of your own, write `cefrodil_map::key!`, with all its fields",
    note = "for a type of another crate, take `cefrodil_map::Hashed<{Self}>`, if its `Hash` tells all keys apart",
    note = "or take an `ObjectMap`, of the feature `objects`: it keeps its keys and compares them"
)]
pub trait Key {
    /// Writes all that tells this key from the others of its type. Of two keys that differ neither writes what the other one begins with. A key
    /// writes the same as what it is borrowed as.
    fn write<H: Hasher>(&self, to: &mut H);

    /// Writes each of these keys.
    fn write_each<H: Hasher>(keys: &[Self], to: &mut H)
    where
        Self: Sized,
    {
        keys.iter().for_each(|key| key.write(to));
    }

    /// Whether each key writes one number of up to 64 bits, which no other key writes. Then the map keeps the number, and confuses no two keys.
    #[doc(hidden)]
    const IS_NUMBER: bool = false;
}

/// Makes a struct or an enum the key of a [`Map`](crate::Map): all its fields together tell one key from another, and so do an enum's variants. Each is
/// named, and each field is a [`Key`] itself. One that is left out doesn't compile.
///
/// ```
/// use cefrodil_map::{key, Map};
///
/// struct Page {
///     user: u64,
///     path: String,
/// }
/// key!(Page { user, path });
///
/// struct Point(i32, i32);
/// key!(Point(x, y));
///
/// enum Owner {
///     Nobody,
///     User(u64),
///     Group { name: String, number: u32 },
/// }
/// key!(enum Owner { Nobody, User(number), Group { name, number } });
///
/// let visits = Map::<Page, u64>::new(1000)?;
/// visits.insert(&Page { user: 7, path: "/".into() }, 1)?;
/// assert_eq!(visits.get(&Page { user: 7, path: "/".into() }), Some(1));
/// assert_eq!(Map::<Point, u64>::new(1000)?.get(&Point(1, 2)), None);
/// let quotas = Map::<Owner, u64>::new(1000)?;
/// quotas.insert(&Owner::User(7), 70)?;
/// assert_eq!((quotas.get(&Owner::User(7)), quotas.get(&Owner::Nobody)), (Some(70), None));
/// # Ok::<(), Box<dyn std::error::Error>>(())
/// ```
///
/// Parameters come after the name. Each type among them must be a key itself:
///
/// ```
/// use cefrodil_map::key;
///
/// struct Edge<'a, N> {
///     from: &'a N,
///     to: &'a N,
/// }
/// key!(Edge<'a, N> { from, to });
/// ```
///
/// ```compile_fail,E0027
/// struct Page {
///     user: u64,
///     path: String,
/// }
/// cefrodil_map::key!(Page { user });
/// ```
///
/// ```compile_fail,E0004
/// enum Owner {
///     Nobody,
///     User(u64),
/// }
/// cefrodil_map::key!(enum Owner { User(number) });
/// ```
#[macro_export]
macro_rules! key {
    (enum $name:ident $(<$($life:lifetime),* $(,)? $($kind:ident),* $(,)?>)? {
        $($variant:ident $({ $($field:ident),* $(,)? })? $(( $($place:ident),* $(,)? ))?),* $(,)?
    }) => {
        impl $(<$($life,)* $($kind: $crate::Key),*>)? $crate::Key for $name $(<$($life,)* $($kind),*>)? {
            fn write<H: ::std::hash::Hasher>(&self, to: &mut H) {
                ::std::hash::Hash::hash(&::std::mem::discriminant(self), to);
                match self {
                    $(Self::$variant $({ $($field),* })? $(( $($place),* ))? => {
                        $($($crate::Key::write($field, to);)*)?
                        $($($crate::Key::write($place, to);)*)?
                    })*
                }
            }
        }
    };
    ($name:ident $(<$($life:lifetime),* $(,)? $($kind:ident),* $(,)?>)? $({ $($field:ident),* $(,)? })? $(( $($place:ident),* $(,)? ))?) => {
        impl $(<$($life,)* $($kind: $crate::Key),*>)? $crate::Key for $name $(<$($life,)* $($kind),*>)? {
            fn write<H: ::std::hash::Hasher>(&self, to: &mut H) {
                let $name $({ $($field),* })? $(( $($place),* ))? = self;
                $($($crate::Key::write($field, to);)*)?
                $($($crate::Key::write($place, to);)*)?
            }
        }
    };
}

/// A key by its `Hash`, for a type of another crate. What that writes must tell all keys apart, as a derived one does if those of all fields do. If
/// it may not, take an `ObjectMap`, of the feature `objects`: it compares keys.
///
/// ```
/// use cefrodil_map::{Hashed, Map};
/// use std::ops::Range;
///
/// let sums = Map::<Hashed<Range<u64>>, u64>::new(1000)?;
/// sums.insert(&Hashed(1..4), 6)?;
/// assert_eq!(sums.get(&Hashed(1..4)), Some(6));
/// # Ok::<(), Box<dyn std::error::Error>>(())
/// ```
#[derive(Clone, Copy, Debug, PartialEq, Eq, Hash)]
pub struct Hashed<T>(pub T);

impl<T: Hash> Key for Hashed<T> {
    fn write<H: Hasher>(&self, to: &mut H) {
        self.0.hash(to);
    }
}

/// A key that a [`Map`](crate::Map) can give back, since it keeps the number: an integer of std of up to 64 bits, also a `NonZero` one, a `char` or a
/// `bool`.
#[diagnostic::on_unimplemented(
    message = "a `Map` can't give a `{Self}` back",
    label = "a `Map` keeps no keys, but integers of up to 64 bits",
    note = "take an `ObjectMap`, of the feature `objects`: it keeps its keys"
)]
pub trait Number: Key + Copy {
    /// The key that writes this number, which a key of this type has written.
    #[doc(hidden)]
    fn of_bits(bits: u64) -> Option<Self>;
}

// Types whose `Hash` writes all.
macro_rules! by_hash {
    ($is_number:literal: $($name:ty)*) => {
        $(impl Key for $name {
            #[inline(always)]
            fn write<H: Hasher>(&self, to: &mut H) {
                self.hash(to);
            }

            #[inline]
            fn write_each<H: Hasher>(keys: &[Self], to: &mut H) {
                Hash::hash_slice(keys, to);
            }

            const IS_NUMBER: bool = $is_number;
        })*
    };
}

by_hash! { true:
    u64 i64 u32 i32 u16 i16 u8 i8 usize isize bool char
    NonZeroU64 NonZeroI64 NonZeroU32 NonZeroI32 NonZeroU16 NonZeroI16 NonZeroU8 NonZeroI8 NonZeroUsize NonZeroIsize
}

by_hash! { false:
    () u128 i128 NonZeroU128 NonZeroI128 String CString OsString Ordering Duration Instant SystemTime ThreadId
    IpAddr Ipv4Addr Ipv6Addr SocketAddr SocketAddrV4 SocketAddrV6
}

macro_rules! given_back {
    ($bits:ident: $($key:expr => $($name:ident)*;)*) => {
        $($(impl Number for $name {
            fn of_bits($bits: u64) -> Option<Self> {
                $key
            }
        })*)*
    };
}

given_back! { bits:
    Some(bits as Self) => u64 i64 u32 i32 u16 i16 u8 i8 usize isize;
    Self::new(bits as _) =>
        NonZeroU64 NonZeroI64 NonZeroU32 NonZeroI32 NonZeroU16 NonZeroI16 NonZeroU8 NonZeroI8 NonZeroUsize NonZeroIsize;
    Some(bits == 1) => bool;
    char::from_u32(bits as u32) => char;
}

macro_rules! unsized_by_hash {
    ($($name:ty)*) => {
        $(impl Key for $name {
            #[inline(always)]
            fn write<H: Hasher>(&self, to: &mut H) {
                self.hash(to);
            }
        })*
    };
}

unsized_by_hash! { str CStr OsStr }

impl<T: Key> Key for [T] {
    fn write<H: Hasher>(&self, to: &mut H) {
        to.write_usize(self.len());
        T::write_each(self, to);
    }
}

impl<T: Key, const N: usize> Key for [T; N] {
    fn write<H: Hasher>(&self, to: &mut H) {
        self[..].write(to);
    }
}

impl<T: Key> Key for Vec<T> {
    fn write<H: Hasher>(&self, to: &mut H) {
        self[..].write(to);
    }
}

// Pointers to a key write what it does.
macro_rules! by_pointer {
    ($($name:ty)*) => {
        $(impl<T: Key + ?Sized> Key for $name {
            #[inline(always)]
            fn write<H: Hasher>(&self, to: &mut H) {
                (**self).write(to);
            }
        })*
    };
}

by_pointer! { &T &mut T Box<T> Rc<T> Arc<T> }

impl<T: Key + ToOwned + ?Sized> Key for Cow<'_, T> {
    fn write<H: Hasher>(&self, to: &mut H) {
        (**self).write(to);
    }
}

impl<T: Key> Key for Wrapping<T> {
    fn write<H: Hasher>(&self, to: &mut H) {
        self.0.write(to);
    }
}

impl<T: Key> Key for Reverse<T> {
    fn write<H: Hasher>(&self, to: &mut H) {
        self.0.write(to);
    }
}

impl<T: Key> Key for Option<T> {
    fn write<H: Hasher>(&self, to: &mut H) {
        to.write_u8(self.is_some().into());
        if let Some(key) = self {
            key.write(to);
        }
    }
}

impl<T: Key, E: Key> Key for Result<T, E> {
    fn write<H: Hasher>(&self, to: &mut H) {
        to.write_u8(self.is_ok().into());
        match self {
            Ok(key) => key.write(to),
            Err(key) => key.write(to),
        }
    }
}

macro_rules! by_parts {
    ($($name:ident)*) => {
        impl<$($name: Key),*> Key for ($($name,)*) {
            #[inline]
            fn write<H: Hasher>(&self, to: &mut H) {
                #[allow(non_snake_case)]
                let ($($name,)*) = self;
                $($name.write(to);)*
            }
        }
    };
}

by_parts! { A }
by_parts! { A B }
by_parts! { A B C }
by_parts! { A B C D }
by_parts! { A B C D E }
by_parts! { A B C D E F }
by_parts! { A B C D E F G }
by_parts! { A B C D E F G I }
