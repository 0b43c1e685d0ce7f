//! A batch reader: an order's products are looked up in one call. Prices that the cache doesn't have come from the price list, and
//! are put for the next order.
use cefrodil::{Cache, Reply, Shape, Writing};
use std::error::Error;

const PRODUCTS: u32 = 10_000;
const ORDERS: u64 = 5_000;
const LINES: usize = 32;

/// The cache, whose values are prices.
struct Prices {
    cache: Writing<'static, 1>,
    misses: u64,
}

impl Prices {
    fn open() -> Result<Prices, Box<dyn Error>> {
        let mut handles = Cache::<1>::open(&Shape::for_items(PRODUCTS, 1)?, 1, 1)?;
        let cache = handles.pop().ok_or("no handle")?.into_writing()?;
        Ok(Prices { cache, misses: 0 })
    }

    /// What the order costs.
    fn total(&mut self, order: &[u64; LINES]) -> u64 {
        let mut replies = [Reply::Busy; LINES];
        self.cache.get_many(order, &mut replies);
        order.iter().zip(replies).map(|(product, reply)| self.price(*product, reply)).sum()
    }

    fn price(&mut self, product: u64, reply: Reply<1>) -> u64 {
        if let Some([price]) = reply.value() {
            return price;
        }
        let price = listed(product);
        self.misses += 1;
        // A price that finds no place is read from the list again.
        let _ = self.cache.put(product, &[price]);
        price
    }
}

/// The price list: the slow way.
fn listed(product: u64) -> u64 {
    product * 37 % 1000 + 1
}

/// The products of an order, each once.
fn products(order: u64) -> [u64; LINES] {
    std::array::from_fn(|line| (order * 97 + line as u64 * 311) % u64::from(PRODUCTS))
}

fn main() -> Result<(), Box<dyn Error>> {
    let mut prices = Prices::open()?;
    for order in (0..ORDERS).map(products) {
        let (total, expected) = (prices.total(&order), order.iter().map(|product| listed(*product)).sum());
        if total != expected {
            return Err(format!("an order costs {total} and must cost {expected}").into());
        }
    }
    println!("{} of {} prices came from the list", prices.misses, ORDERS * LINES as u64);
    if prices.misses != u64::from(PRODUCTS) {
        return Err("each product must miss once".into());
    }
    Ok(())
}
