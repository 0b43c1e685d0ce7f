//! A service on tokio that keeps pages of a store in a cache. Of all tasks that miss a page, one loads it. When a shop changes its prices, the pages with
//! its tag are invalidated: no request that begins later gets an older one.
use cefrodil_map::{ClearError, ObjectMap, OpenError};
use std::sync::atomic::{AtomicU64, Ordering::SeqCst};
use std::sync::Arc;
use std::time::Duration;
use tokio::runtime::Runtime;
use tokio::time::sleep;

const SHOPS: u64 = 4;
const PAGES: u64 = 200;

struct Page {
    shop: u64,
    price: u64,
}

struct Service {
    pages: ObjectMap<u64, Arc<Page>>,
    // In place of a database: what each shop asks.
    prices: [AtomicU64; SHOPS as usize],
}

impl Service {
    fn new() -> Result<Service, OpenError> {
        let pages = ObjectMap::builder(PAGES as usize).time_to_live(Duration::from_secs(60)).open()?;
        Ok(Service { pages, prices: Default::default() })
    }

    async fn load(&self, page: u64) -> Arc<Page> {
        let shop = page % SHOPS;
        let price = self.prices[shop as usize].load(SeqCst);
        // The answer of a database takes a while.
        sleep(Duration::from_millis(5)).await;
        Arc::new(Page { shop, price })
    }

    async fn page(&self, page: u64) -> Arc<Page> {
        self.pages.get_or_insert_async(&page, self.load(page)).await
    }

    // The store is changed first, and then the cache. It takes a turn at each entry, so it is no call for a task: see `main`.
    fn change(&self, shop: u64, price: u64) -> Result<usize, ClearError> {
        self.prices[shop as usize].store(price, SeqCst);
        self.pages.retain(|_, page| page.shop != shop)
    }
}

// A client that asks for each page, and never gets one with a lower price than a change said that had returned before.
async fn ask(service: Arc<Service>, least: Arc<AtomicU64>) {
    for page in 0..PAGES {
        let promised = least.load(SeqCst);
        assert!(service.page(page).await.price >= promised, "an older page was found");
    }
}

fn main() -> Result<(), Box<dyn std::error::Error>> {
    let (service, least) = (Arc::new(Service::new()?), Arc::new(AtomicU64::new(0)));
    let runtime = Runtime::new()?;
    runtime.block_on(async {
        let clients: Vec<_> = (0..50).map(|_| tokio::spawn(ask(Arc::clone(&service), Arc::clone(&least)))).collect();
        for price in 1..=20 {
            let changing = Arc::clone(&service);
            tokio::task::spawn_blocking(move || (0..SHOPS).try_for_each(|shop| changing.change(shop, price).map(drop))).await??;
            least.store(price, SeqCst);
            sleep(Duration::from_millis(20)).await;
        }
        for client in clients {
            client.await?;
        }
        Ok::<(), Box<dyn std::error::Error>>(())
    })?;
    let stats = service.pages.stats();
    println!("{} loads for {} hits", stats.loads, stats.hits);
    Ok(())
}
