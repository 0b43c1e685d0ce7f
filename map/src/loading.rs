//! How often functions that compute values ran, and how long.
use crate::core::Core;
use crate::handle::Index;
use crate::stats::Kind;
use std::future::Future;
use std::time::Instant;

/// A function that runs. It is counted when this is dropped, also by a panic or if its task is cancelled.
struct Loading<'a, H: Index + 'static, V> {
    core: &'a Core<H, V>,
    begin: Instant,
    has_failed: bool,
}

impl<H: Index + 'static, V> Drop for Loading<'_, H, V> {
    fn drop(&mut self) {
        let slots = &self.core.slots;
        slots.count(Kind::Load);
        if self.has_failed {
            slots.count(Kind::LoadFailure);
        }
        slots.add(Kind::LoadNanoseconds, self.begin.elapsed().as_nanos() as u64);
        self.core.note_sums();
    }
}

impl<H: Index + 'static, V> Core<H, V> {
    fn begin_load(&self) -> Loading<'_, H, V> {
        Loading { core: self, begin: Instant::now(), has_failed: true }
    }

    /// Calls a function that computes a value.
    pub fn load<T, E>(&self, make: impl FnOnce() -> Result<T, E>) -> Result<T, E> {
        let mut loading = self.begin_load();
        let made = make();
        loading.has_failed = made.is_err();
        made
    }

    /// Awaits one.
    pub async fn load_async<T, E>(&self, load: impl Future<Output = Result<T, E>>) -> Result<T, E> {
        let mut loading = self.begin_load();
        let made = load.await;
        loading.has_failed = made.is_err();
        made
    }
}
