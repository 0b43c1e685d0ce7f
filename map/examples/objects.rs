//! Pages by their path, which threads render and share. A listener counts the bytes of the pages that gave way to others.
use cefrodil_map::{ObjectMap, Reason};
use std::error::Error;
use std::sync::atomic::{AtomicUsize, Ordering::SeqCst};
use std::sync::Arc;
use std::thread;

fn render(path: &str) -> Arc<str> {
    format!("<h1>{path}</h1>").into()
}

fn main() -> Result<(), Box<dyn Error>> {
    let bytes = Arc::new(AtomicUsize::new(0));
    let evicted = Arc::clone(&bytes);
    let hear = move |_: &String, page: &Arc<str>, reason| {
        if reason == Reason::Evicted {
            evicted.fetch_add(page.len(), SeqCst);
        }
    };
    let pages = ObjectMap::builder(100).listener(hear).open()?;
    thread::scope(|threads| {
        for _ in 0..4 {
            threads.spawn(|| {
                for number in 0..300 {
                    let path = format!("/page/{number:03}");
                    let page = pages.get_or_insert_with(path.as_str(), || render(&path));
                    assert!(page.contains(&path));
                }
            });
        }
    });
    assert_eq!(bytes.load(SeqCst), pages.stats().evicted as usize * render("/page/000").len());
    println!("{} pages, {} bytes gave way, {:?}", pages.len(), bytes.load(SeqCst), pages.stats());
    Ok(())
}
