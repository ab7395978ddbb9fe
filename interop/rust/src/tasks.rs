//! The tasks of a thread, and times to wait for.
use capnp::Error;
use futures::FutureExt;
use futures::executor::{LocalPool, LocalSpawner};
use futures::future::{Either, select};
use futures::task::LocalSpawnExt;
use std::cell::RefCell;
use std::future::Future;
use std::pin::{Pin, pin};
use std::task::{Context, Poll};
use std::time::{Duration, Instant};

thread_local! {
    static SPAWNER: RefCell<Option<LocalSpawner>> = const { RefCell::new(None) };
}

/// Does this, and what is detached meanwhile.
pub fn run<T>(main: impl Future<Output = T>) -> T {
    let mut pool = LocalPool::new();
    SPAWNER.set(Some(pool.spawner()));
    let done = pool.run_until(main);
    SPAWNER.set(None);
    done
}

/// Has something done for which nobody waits.
pub fn detach(task: impl Future<Output = Result<(), Error>> + 'static) {
    SPAWNER.with_borrow(|spawner| {
        if let Some(spawner) = spawner {
            let _ = spawner.spawn_local(task.map(|_| ()));
        }
    });
}

/// A moment, which is looked at again and again.
struct Until(Instant);

impl Future for Until {
    type Output = ();

    fn poll(self: Pin<&mut Self>, context: &mut Context) -> Poll<()> {
        if Instant::now() >= self.0 {
            return Poll::Ready(());
        }
        context.waker().wake_by_ref();
        Poll::Pending
    }
}

pub async fn sleep(milliseconds: u64) {
    Until(Instant::now() + Duration::from_millis(milliseconds)).await
}

/// What comes of something within so many seconds.
pub async fn within<T>(seconds: u64, task: impl Future<Output = Result<T, Error>>) -> Result<T, Error> {
    match select(pin!(task), pin!(sleep(1000 * seconds))).await {
        Either::Left((done, _)) => done,
        Either::Right(_) => Err(Error::overloaded("it takes too long".into())),
    }
}
