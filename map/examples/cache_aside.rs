//! An async service that keeps pages of a store in a cache. Of the tasks that miss a page, one loads it. A change in the store invalidates all pages that
//! have its tag: no request that begins later gets an older one. Tasks of any executor do; this takes a small one of the tests.
#[path = "../tests/executor/mod.rs"]
mod executor;

use cefrodil_map::{ClearError, ObjectMap, OpenError};
use executor::{give_way, run, Job};
use std::sync::{atomic::AtomicU64, atomic::AtomicUsize, atomic::Ordering::SeqCst, Arc};

const PAGES: u64 = 5_000;
const TAGS: u64 = 10;
const TASKS: u64 = 100;
const REQUESTS: u64 = 2_000;

struct Page {
    tag: u64,
    version: u64,
}

struct Service {
    pages: ObjectMap<u64, Arc<Page>>,
    // In place of a database: the version of all pages with a tag.
    store: [AtomicU64; TAGS as usize],
    loads: AtomicUsize,
    stale: AtomicUsize,
}

impl Service {
    fn new() -> Result<Service, OpenError> {
        let pages = ObjectMap::builder(PAGES as usize / 2).open()?;
        Ok(Service { pages, store: Default::default(), loads: AtomicUsize::new(0), stale: AtomicUsize::new(0) })
    }

    async fn load(&self, page: u64) -> Arc<Page> {
        self.loads.fetch_add(1, SeqCst);
        let tag = page % TAGS;
        let version = self.store[tag as usize].load(SeqCst);
        // The answer of a database takes a while.
        give_way().await;
        Arc::new(Page { tag, version })
    }

    async fn page(&self, page: u64) -> Arc<Page> {
        self.pages.get_or_insert_async(&page, self.load(page)).await
    }

    // The store is changed first, and then the cache.
    fn change(&self, tag: u64) -> Result<u64, ClearError> {
        let version = self.store[tag as usize].fetch_add(1, SeqCst) + 1;
        self.pages.retain(|_, page| page.tag != tag)?;
        Ok(version)
    }
}

fn main() {
    let service = Arc::new(Service::new().unwrap());
    // The versions whose changes have returned: no older page may be found.
    let changed: Arc<[AtomicU64; TAGS as usize]> = Arc::default();
    let task = |number: u64| -> Job {
        let (service, changed) = (Arc::clone(&service), Arc::clone(&changed));
        Box::pin(async move {
            for request in 0..REQUESTS {
                let number = (number * REQUESTS + request).wrapping_mul(0x9e37_79b9_7f4a_7c15) >> 40;
                let (wanted, tag) = (number % PAGES, number % PAGES % TAGS);
                let least = changed[tag as usize].load(SeqCst);
                let is_stale = service.page(wanted).await.version < least;
                service.stale.fetch_add(usize::from(is_stale), SeqCst);
                if request % 1_000 == 999 {
                    changed[tag as usize].fetch_max(service.change(tag).unwrap(), SeqCst);
                }
            }
        })
    };
    run(4, (0..TASKS).map(task).collect());
    println!("{} pages were loaded for {} requests", service.loads.load(SeqCst), TASKS * REQUESTS);
    assert_eq!(service.stale.load(SeqCst), 0, "older pages were found");
}
