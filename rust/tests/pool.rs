//! Handles that belong to no scope, and pools of them.
use cefrodil::{Cache, Filler, Handle, Lent, Opened, Pool, Reply, Shape, Writing};
use std::error::Error;
use std::fmt::Debug;
use std::future::{self, Future};
use std::pin::pin;
use std::sync::Arc;
use std::task::{Context, Poll, Wake, Waker};
use std::thread;

type Tested = Result<(), Box<dyn Error>>;

#[test]
fn a_pool_lends_each_handle_once() -> Tested {
    let mut handles = Cache::<1>::open(&Shape::for_items(100, 1)?, 1, 2)?;
    handles[0].try_put(7, &[70])?;
    let pool = Pool::new(handles);
    let mut one = pool.take().ok_or("no handle")?;
    let mut two = pool.clone().take().ok_or("no second handle")?;
    assert!(pool.take().is_none() && pool.clone().take().is_none());
    assert_eq!((one.get(7).value(), two.get(8).value()), (Some([70]), None));
    drop(one);
    assert_eq!(pool.take().ok_or("no handle came back")?.get(7).value(), Some([70]));
    drop(pool);
    assert_eq!(two.get(7).value(), Some([70]));
    Ok(())
}

#[test]
fn a_pool_lends_first_what_came_back_last() -> Tested {
    let pool = Pool::new(vec![1, 2, 3]);
    let (three, two) = (pool.take().ok_or("nothing")?, pool.take().ok_or("nothing")?);
    assert_eq!((*three, *two), (3, 2));
    drop(three);
    assert_eq!(pool.take().map(|lent| *lent), Some(3));
    drop(two);
    assert_eq!(pool.take().map(|lent| *lent), Some(2));
    Ok(())
}

#[test]
fn a_handle_comes_back_from_a_thread_that_panics() -> Tested {
    let pool = Pool::new(Cache::<1>::open(&Shape::for_items(100, 1)?, 1, 1)?);
    let theirs = pool.clone();
    let thread = thread::spawn(move || {
        let mut handle = theirs.take().expect("there is one handle");
        assert_eq!(handle.get(7).value(), Some([70]), "as it must fail");
    });
    assert!(thread.join().is_err());
    assert_eq!(pool.take().ok_or("no handle came back")?.get(7), Reply::Absent { at: 0 });
    Ok(())
}

#[test]
fn more_threads_than_handles_share_a_pool() -> Tested {
    let mut handles = Cache::<1>::open(&Shape::for_items(100, 1)?, 1, 2)?;
    handles[0].try_put(7, &[70])?;
    let pool = Pool::new(handles);
    let threads: Vec<_> = (0..8).map(|_| pool.clone()).map(|pool| thread::spawn(move || find_often(&pool))).collect();
    for thread in threads {
        thread.join().map_err(|_| "a thread panicked")?;
    }
    Ok(())
}

// Takes a handle for each lookup.
fn find_often(pool: &Pool<Handle<1>>) {
    let mut found = 0;
    while found < 1000 {
        match pool.take() {
            Some(mut handle) => found += u32::from(handle.get(7).value() == Some([70])),
            None => thread::yield_now(),
        }
    }
}

#[test]
fn threads_write_by_handles_of_a_pool() -> Tested {
    let mut handles = Cache::<1>::open(&Shape::for_items(100, 1)?, 1, 3)?;
    handles[0].try_put(7, &[0])?;
    let pool = Pool::new(handles);
    let threads: Vec<_> = (0..3).map(|_| pool.clone()).map(|pool| thread::spawn(move || add_often(&pool))).collect();
    for thread in threads {
        thread.join().map_err(|_| "a thread panicked")?;
    }
    assert_eq!(pool.take().ok_or("no handle came back")?.get_or_turn(7).value(), Some([3000]));
    Ok(())
}

// Adds one a thousand times, each time only if nobody has put since.
fn add_often(pool: &Pool<Handle<1>>) {
    let mut handle = pool.take().expect("there is a handle for each thread");
    let mut added = 0;
    while added < 1000 {
        if let Reply::Found { value: [count], since, .. } = handle.get_or_turn(7) {
            added += u32::from(handle.try_put_if(7, since, &[count + 1]).is_ok());
        }
    }
}

#[test]
fn handles_may_go_to_a_thread_that_is_not_scoped() {
    fn may_go<T: Send + 'static + Debug>() {}
    may_go::<Handle<1>>();
    may_go::<Writing<'static, 1>>();
    may_go::<Filler<1>>();
    may_go::<Opened<1>>();
    may_go::<Cache<1>>();
    may_go::<Lent<Handle<1>>>();
    may_go::<Pool<Handle<1>>>();
}

#[test]
fn handles_may_be_shared_by_threads() {
    fn may_be_shared<T: Sync>() {}
    may_be_shared::<Handle<1>>();
    may_be_shared::<Writing<1>>();
    may_be_shared::<Opened<1>>();
    may_be_shared::<Filler<1>>();
    may_be_shared::<Lent<Handle<1>>>();
}

// A service whose requests wait, each with the service borrowed.
struct Service {
    handle: Handle<1>,
    requests: u64,
}

impl Service {
    async fn serve(&self) -> u64 {
        future::ready(()).await;
        self.requests
    }

    async fn look_up(&mut self, key: u64) -> Reply<1> {
        self.requests += self.serve().await + 1;
        self.handle.get(key)
    }
}

// A waker that ignores that a future is ready.
struct Nobody;

impl Wake for Nobody {
    fn wake(self: Arc<Nobody>) {}
}

#[test]
fn a_service_with_a_handle_may_wait_in_another_thread() -> Tested {
    fn may_go<T: Send>(future: T) -> T {
        future
    }
    let mut handles = Cache::<1>::open(&Shape::for_items(100, 1)?, 1, 1)?;
    handles[0].try_put(7, &[70])?;
    let mut service = Service { handle: handles.pop().ok_or("no handle")?, requests: 0 };
    let waker = Waker::from(Arc::new(Nobody));
    let mut looking = pin!(may_go(service.look_up(7)));
    assert_eq!(
        looking.as_mut().poll(&mut Context::from_waker(&waker)),
        Poll::Ready(Reply::Found { value: [70], at: 1, since: 1 })
    );
    Ok(())
}

#[test]
fn debug_shows_what_is_lent() -> Tested {
    let pool = Pool::new(Cache::<1>::open(&Shape::for_items(100, 1)?, 1, 1)?);
    assert_eq!(format!("{pool:?} {:?}", pool.take()), "Pool { .. } Some(Handle { .. })");
    Ok(())
}
