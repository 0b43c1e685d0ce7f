//! What the tests of tasks need: an executor with several threads, a waker that counts, and futures that are dropped before they end.
#![allow(dead_code)]

use std::collections::VecDeque;
use std::future::{poll_fn, Future};
use std::panic::{catch_unwind, AssertUnwindSafe};
use std::pin::{pin, Pin};
use std::sync::atomic::{AtomicUsize, Ordering::SeqCst};
use std::sync::{Arc, Condvar, Mutex};
use std::task::{Context, Poll, Wake, Waker};
use std::thread;

pub type Job = Pin<Box<dyn Future<Output = ()> + Send>>;

#[derive(Default)]
struct Executor {
    state: Mutex<State>,
    changed: Condvar,
}

#[derive(Default)]
struct State {
    queue: VecDeque<Arc<Task>>,
    // Tasks that have not ended.
    left: usize,
}

struct Task {
    // `None`: it has ended.
    job: Mutex<Option<Job>>,
    executor: Arc<Executor>,
}

impl Wake for Task {
    fn wake(self: Arc<Self>) {
        let executor = Arc::clone(&self.executor);
        executor.state.lock().unwrap().queue.push_back(self);
        executor.changed.notify_one();
    }
}

impl Executor {
    fn next(&self) -> Option<Arc<Task>> {
        let idle = |state: &mut State| state.queue.is_empty() && state.left > 0;
        let mut state = self.changed.wait_while(self.state.lock().unwrap(), idle).unwrap();
        state.queue.pop_front()
    }

    // A task that panics has ended.
    fn work(&self) {
        while let Some(task) = self.next() {
            let mut job = task.job.lock().unwrap();
            let waker = Arc::clone(&task).into();
            let poll = |job: &mut Job| job.as_mut().poll(&mut Context::from_waker(&waker));
            let Some(polled) = job.as_mut().map(|job| catch_unwind(AssertUnwindSafe(|| poll(job)))) else { continue };
            if !matches!(polled, Ok(Poll::Pending)) {
                *job = None;
                self.state.lock().unwrap().left -= 1;
                self.changed.notify_all();
            }
        }
    }
}

/// Runs the jobs by so many threads until all have ended.
pub fn run(threads: usize, jobs: Vec<Job>) {
    let executor = Arc::new(Executor::default());
    executor.state.lock().unwrap().left = jobs.len();
    for job in jobs {
        Arc::new(Task { job: Mutex::new(Some(job)), executor: Arc::clone(&executor) }).wake();
    }
    thread::scope(|scope| (0..threads).for_each(|_| drop(scope.spawn(|| executor.work()))));
}

/// Lets other tasks go on, once.
pub async fn give_way() {
    let mut is_first = true;
    poll_fn(|context| {
        if !is_first {
            return Poll::Ready(());
        }
        is_first = false;
        context.waker().wake_by_ref();
        Poll::Pending
    })
    .await;
}

/// Awaits the future, and drops it after so many polls. `None`: it was dropped.
pub async fn cancelled_after<T>(polls: usize, future: impl Future<Output = T>) -> Option<T> {
    let mut future = pin!(future);
    let mut left = polls;
    poll_fn(|context| {
        if left == 0 {
            return Poll::Ready(None);
        }
        left -= 1;
        let polled = future.as_mut().poll(context).map(Some);
        if left == 0 && polled.is_pending() {
            return Poll::Ready(None);
        }
        polled
    })
    .await
}

/// How often a waker was called.
#[derive(Default)]
pub struct Wakes(AtomicUsize);

impl Wake for Wakes {
    fn wake(self: Arc<Self>) {
        self.0.fetch_add(1, SeqCst);
    }
}

impl Wakes {
    pub fn count(&self) -> usize {
        self.0.load(SeqCst)
    }

    /// How many wakers there are beside those of the test.
    pub fn wakers(self: &Arc<Self>) -> usize {
        Arc::strong_count(self) - 1
    }
}

/// Polls the future once, with this waker.
pub fn poll<F: Future + Unpin>(wakes: &Arc<Wakes>, future: &mut F) -> Poll<F::Output> {
    let waker: Waker = Arc::clone(wakes).into();
    Pin::new(future).poll(&mut Context::from_waker(&waker))
}
