//! A cache with two handles: one holds and writes, the other looks up. README quotes it, and shows what it prints.
use cefrodil::{Cache, Shape};

fn main() -> Result<(), Box<dyn std::error::Error>> {
    let mut handles = Cache::<1>::open(&Shape::for_items(1000, 1)?, 1, 2)?;
    let mut mine = handles.pop().expect("there are two");
    let mut writing = mine.hold()?;
    writing.put(7, &[70])?;
    println!("{:?}", handles[0].get(7));
    Ok(())
}
