//! A table that grows, so that it evicts nothing: before it is full, a larger one takes over its entries.
use cefrodil::{Cache, Handle, Opened, PutError, Shape, Writing};
use std::error::Error;

const KEYS: u64 = 50_000;

/// A table for one thread. Handles in other threads would keep the old table: send them handles of the new one.
struct Table(Writing<'static, 1>);

impl Table {
    fn open(items: u32) -> Result<Table, Box<dyn Error>> {
        Table::of(Cache::open(&Shape::for_items(items, 1)?, 1, 1)?)
    }

    fn of(mut handles: Vec<Handle<1>>) -> Result<Table, Box<dyn Error>> {
        Ok(Table(handles.pop().ok_or("no handle")?.into_writing()?))
    }

    /// Puts the key. Grows first if the table is full, or if the key finds no place in it.
    fn put(&mut self, key: u64, value: u64) -> Result<(), Box<dyn Error>> {
        if self.0.len() == self.0.capacity() && self.get(key).is_none() {
            self.grow()?;
        }
        while let Err(why) = self.0.put(key, &[value]) {
            match why {
                PutError::NoPath => self.grow()?,
                why => return Err(why.into()),
            }
        }
        Ok(())
    }

    fn get(&mut self, key: u64) -> Option<u64> {
        self.0.get(key).value().map(|[value]| value)
    }

    /// Moves all entries to a table of twice the size, or of four times, until each has a place there.
    fn grow(&mut self) -> Result<(), Box<dyn Error>> {
        let entries = self.0.entries()?;
        let mut items = u32::try_from(self.0.capacity())?;
        loop {
            items = items.checked_mul(2).ok_or("the table is too large")?;
            let Opened { handles, left } = Cache::open_with(&Shape::for_items(items, 1)?, 1, 1, &entries)?;
            if left.is_empty() {
                *self = Table::of(handles)?;
                return Ok(());
            }
        }
    }
}

fn main() -> Result<(), Box<dyn Error>> {
    let mut table = Table::open(100)?;
    for key in 0..KEYS {
        table.put(key, key * key)?;
    }
    let found = (0..KEYS).filter(|key| table.get(*key) == Some(key * key)).count() as u64;
    println!("{found} of {KEYS} keys, in a table for {}", table.0.capacity());
    if found != KEYS || table.0.len() as u64 != KEYS {
        return Err("a key was lost".into());
    }
    Ok(())
}
