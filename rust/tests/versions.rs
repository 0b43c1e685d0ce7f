//! Each opening refuses an archive of another minor version, and one whose patch alone is another opens. So this test passes over any archive.
use cefrodil::{Cache, Mix, OpenError, Policy, Shape};

const SHAPE: Shape = Shape {
    limit: 1 << 62,
    buckets: 64,
    items: 100,
    stripes: 64,
    depth: 5,
    tries: 8,
    mix: Mix::Full,
    policy: Policy::ScanResistant,
};

#[test]
fn an_archive_of_another_version_opens_nothing() {
    let parts: Vec<u32> = env!("CARGO_PKG_VERSION").split('.').map(|part| part.parse().expect("a number")).collect();
    let (archive, crate_version) = (cefrodil::version(), 10_000 * parts[0] + 100 * parts[1] + parts[2]);
    let expected = (archive / 100 != crate_version / 100).then_some(OpenError::Version { archive, crate_version });
    assert_eq!(Shape::for_items(100, 4).err(), expected);
    assert_eq!(Cache::<1>::open(&SHAPE, 4, 1).err(), expected);
    assert_eq!(Cache::<1>::open_with(&SHAPE, 4, 1, &[(1, [10])]).err(), expected);
}
