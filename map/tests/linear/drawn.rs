//! The options of a map, drawn, and what opens a map by them.
use crate::objects::Objects;
use crate::rounds::{Calls, Random};
use crate::values::Values;
use cefrodil_map::{Builder, Map, ObjectBuilder, ObjectMap};
use std::collections::hash_map::DefaultHasher;
use std::future::Future;
use std::hash::{BuildHasher, Hasher};
use std::pin::pin;
use std::sync::atomic::{AtomicU64, Ordering::SeqCst};
use std::sync::{Arc, Weak};
use std::task::{Context, Poll, Wake, Waker};
use std::thread::{self, Thread};
use std::time::Duration;

/// The options, and what the calls do with them.
#[derive(Clone, Copy, Debug)]
pub struct Drawn {
    pub capacity: usize,
    pub shards: Option<u32>,
    pub threads: usize,
    /// A hasher of the test's. If it collides, two keys have one hash.
    pub hasher: Option<Mine>,
    pub life: Option<Duration>,
    pub idle: Option<Duration>,
    /// Other keys fill the map.
    pub is_full: bool,
    /// Calls change the capacity.
    pub resizes: bool,
    /// Of an `ObjectMap`. The listener counts, and may put other objects.
    pub most_weight: Option<u64>,
    pub listens: bool,
    pub nests: bool,
}

/// A hasher with a state.
#[derive(Clone, Copy, Debug)]
pub struct Mine {
    collides: bool,
}

pub struct MineHasher(Mine, DefaultHasher);

impl BuildHasher for Mine {
    type Hasher = MineHasher;

    fn build_hasher(&self) -> MineHasher {
        MineHasher(*self, DefaultHasher::new())
    }
}

impl Hasher for MineHasher {
    fn finish(&self) -> u64 {
        self.1.finish()
    }

    fn write(&mut self, bytes: &[u8]) {
        self.1.write(bytes);
    }

    fn write_u64(&mut self, number: u64) {
        self.1.write_u64(if self.0.collides { number.div_ceil(2) } else { number });
    }
}

impl Drawn {
    /// No options but this capacity.
    pub const fn of(capacity: usize) -> Drawn {
        Drawn {
            capacity,
            shards: None,
            threads: 64,
            hasher: None,
            life: None,
            idle: None,
            is_full: false,
            resizes: false,
            most_weight: None,
            listens: false,
            nests: false,
        }
    }

    /// Draws all options that such a map has.
    pub fn new(random: &mut Random, is_objects: bool) -> Drawn {
        let life = |random: &mut Random| match random.draw(4) {
            0 | 1 => None,
            2 => Some(Duration::MAX),
            _ => Some(Duration::from_nanos(1_000 << random.draw(12))),
        };
        let capacity = if random.is(2) { 100 } else { 1 << random.draw(10) };
        let (listens, most) = (is_objects && random.is(2), 4 << random.draw(10));
        Drawn {
            capacity: (capacity + random.draw(capacity)) as usize,
            shards: if random.is(2) { None } else { Some(1 << random.draw(5)) },
            threads: if random.is(2) { 64 } else { random.draw(6) as usize },
            hasher: if random.is(2) { None } else { Some(Mine { collides: random.is(3) }) },
            life: life(random),
            idle: life(random),
            is_full: random.is(3),
            resizes: random.is(3),
            most_weight: if !is_objects || random.is(2) { None } else { Some(1 + random.draw(most)) },
            listens,
            nests: listens && random.is(2),
        }
    }

    /// Whether entries end by their time.
    pub fn ends(&self) -> bool {
        [self.life, self.idle].into_iter().flatten().any(|life| life < Duration::MAX)
    }

    /// Whether a key gives way to another one that has its hash.
    pub fn collides(&self) -> bool {
        self.hasher.is_some_and(|hasher| hasher.collides)
    }

    /// A `Map`.
    pub fn values(self) -> Arc<dyn Calls> {
        let builder = Map::<u64, u64>::builder(self.capacity);
        match self.hasher {
            Some(hasher) => self.values_by(builder.hasher(hasher)),
            None => self.values_by(builder),
        }
    }

    /// An `ObjectMap`.
    pub fn objects(self) -> Arc<dyn Calls> {
        let builder = ObjectMap::<u64, u64>::builder(self.capacity);
        match self.hasher {
            Some(hasher) => self.objects_by(builder.hasher(hasher)),
            None => self.objects_by(builder),
        }
    }

    fn values_by<S: BuildHasher + Send + Sync + 'static>(self, builder: Builder<u64, u64, S>) -> Arc<dyn Calls> {
        let mut builder = builder.threads(self.threads);
        builder = if let Some(shards) = self.shards { builder.shards(shards) } else { builder };
        builder = if let Some(life) = self.life { builder.time_to_live(life) } else { builder };
        builder = if let Some(idle) = self.idle { builder.time_to_idle(idle) } else { builder };
        Arc::new(Values::new(self, builder.open().unwrap()))
    }

    fn objects_by<S: BuildHasher + Send + Sync + 'static>(self, builder: ObjectBuilder<u64, u64, S>) -> Arc<dyn Calls> {
        Arc::new_cyclic(|weak: &Weak<Objects<S>>| {
            let (weak, freed) = (weak.clone(), Arc::new(AtomicU64::new(0)));
            let mut builder = builder.threads(self.threads);
            builder = if let Some(shards) = self.shards { builder.shards(shards) } else { builder };
            builder = if let Some(life) = self.life { builder.time_to_live(life) } else { builder };
            builder = if let Some(idle) = self.idle { builder.time_to_idle(idle) } else { builder };
            builder =
                if let Some(most) = self.most_weight { builder.max_weight(most, |_, value| 1 + value % 4) } else { builder };
            if self.listens {
                let freed = Arc::clone(&freed);
                builder = builder.listener(move |_, value, _| weak.upgrade().expect("a call runs").hear(*value));
                builder = builder.freed(move |_, _| {
                    freed.fetch_add(1, SeqCst);
                });
            }
            Objects::new(self, builder.open().unwrap(), freed)
        })
    }
}

/// Runs a task in this thread until it ends.
pub fn wait_for<T>(task: impl Future<Output = T>) -> T {
    struct Unpark(Thread);
    impl Wake for Unpark {
        fn wake(self: Arc<Self>) {
            self.0.unpark();
        }
    }
    let (mut task, waker) = (pin!(task), Waker::from(Arc::new(Unpark(thread::current()))));
    loop {
        match task.as_mut().poll(&mut Context::from_waker(&waker)) {
            Poll::Ready(value) => return value,
            Poll::Pending => thread::park(),
        }
    }
}
