//! On a processor that is too old each opening is an error. `.ci/door` links this with an archive that finds each processor too old, and then
//! sets `TOO_OLD`. Over any other archive each opening opens.
use cefrodil::{Cache, Mix, OpenError, Policy, Shape};

const SHAPE: Shape = Shape {
    limit: 1 << 62,
    buckets: 64,
    items: 100,
    stripes: 64,
    depth: 5,
    tries: 8,
    mix: Mix::Full,
    policy: Policy::ScanResistant,
};

#[test]
fn a_processor_that_is_too_old_opens_nothing() {
    let expected = option_env!("TOO_OLD").map(|_| OpenError::Processor);
    assert_eq!(Shape::for_items(100, 4).err(), expected);
    assert_eq!(Cache::<1>::open(&SHAPE, 4, 1).err(), expected);
    assert_eq!(Cache::<1>::open_with(&SHAPE, 4, 1, &[(1, [10])]).err(), expected);
}
