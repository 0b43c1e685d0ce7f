//! The widths of values.

/// Values that a cache can have: 1 to 8 words.
///
/// Code that opens caches of a generic width needs this bound. Code that uses their handles does not:
///
/// ```
/// use cefrodil::{Cache, Handle, OpenError, Shape, Value};
///
/// fn small<const WORDS: usize>() -> Result<Vec<Handle<WORDS>>, OpenError>
/// where
///     [u64; WORDS]: Value,
/// {
///     Cache::open(&Shape::for_items(100, 1)?, 1, 1)
/// }
///
/// let handles = small::<8>()?;
/// # Ok::<(), OpenError>(())
/// ```
///
/// A type of yours goes in and comes out by `From`:
///
/// ```
/// use cefrodil::{Cache, Shape};
///
/// #[derive(Debug, PartialEq)]
/// struct Account {
///     owner: u64,
///     rate: f64,
/// }
///
/// impl From<Account> for [u64; 2] {
///     fn from(account: Account) -> [u64; 2] {
///         [account.owner, account.rate.to_bits()]
///     }
/// }
///
/// impl From<[u64; 2]> for Account {
///     fn from([owner, rate]: [u64; 2]) -> Account {
///         Account { owner, rate: f64::from_bits(rate) }
///     }
/// }
///
/// let mut handles = Cache::<2>::open(&Shape::for_items(100, 1)?, 1, 1)?;
/// handles[0].try_put(7, &Account { owner: 70, rate: 0.5 }.into())?;
/// let found = handles[0].get(7).value().map(Account::from);
/// assert_eq!(found, Some(Account { owner: 70, rate: 0.5 }));
/// # Ok::<(), Box<dyn std::error::Error>>(())
/// ```
#[diagnostic::on_unimplemented(message = "a value has 1 to 8 words", label = "not the value of a cache")]
pub trait Value: sealed::Sealed {}

mod sealed {
    pub trait Sealed {}
}

macro_rules! values {
    ($($words:literal)*) => {
        $(
            impl sealed::Sealed for [u64; $words] {}
            impl Value for [u64; $words] {}
        )*
    };
}

values!(1 2 3 4 5 6 7 8);
