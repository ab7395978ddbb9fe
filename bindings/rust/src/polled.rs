//! A connection over a stream of the crate `futures-io`: with the feature `futures-io`.

use crate::connection::{Connection, shared};
use crate::object::Object;
use crate::shared::{Next, Shared};
use futures_io::{AsyncRead, AsyncWrite};
use std::future::Future;
use std::io;
use std::pin::Pin;
use std::sync::Arc;
use std::task::{Context, Poll};

/// How many pieces are read and written before other tasks have their turn.
const TURNS: usize = 32;

impl Connection {
    /// As [`Connection::connected`], over a stream of `futures-io`. The connection works while the future is polled, which ends with
    /// it: hand it to an executor.
    ///
    /// ```
    /// use futures_io::{AsyncRead, AsyncWrite};
    /// use lovendak::{Connection, Struct};
    /// use std::future::Future;
    /// use std::io;
    /// use std::pin::Pin;
    ///
    /// async fn twice(
    ///     stream: impl AsyncRead + AsyncWrite + Unpin + 'static,
    ///     spawn: impl Fn(Pin<Box<dyn Future<Output = ()>>>),
    /// ) -> io::Result<u64> {
    ///     let (connection, work) = Connection::connected_async(stream, None)?;
    ///     spawn(Box::pin(work));
    ///     let call = connection.bootstrap().call(7, 0, Struct::default().set_number(0, 21u64));
    ///     let results = call.await.map_err(|exception| io::Error::new(io::ErrorKind::Other, exception))?;
    ///     let root = results.root().map_err(|error| io::Error::new(io::ErrorKind::InvalidData, error))?;
    ///     Ok(root.number(0))
    /// }
    /// ```
    pub fn connected_async<S>(stream: S, root: Option<Arc<dyn Object>>) -> io::Result<(Connection, Polled<S>)>
    where
        S: AsyncRead + AsyncWrite + Unpin,
    {
        Polled::begin(stream, root, false)
    }

    /// As [`Connection::accepted`], over a stream of `futures-io`.
    pub fn accepted_async<S>(stream: S, root: Arc<dyn Object>) -> io::Result<(Connection, Polled<S>)>
    where
        S: AsyncRead + AsyncWrite + Unpin,
    {
        Polled::begin(stream, Some(root), true)
    }
}

/// What reads and writes for a connection, until it has ended. If it is dropped, the connection ends.
#[must_use = "a connection works while this is polled"]
pub struct Polled<S> {
    shared: Arc<Shared>,
    stream: S,
    holds_back: bool,
    room: Vec<u8>,
    out: Vec<u8>,
    sent: usize,
    has_failed: bool,
}

impl<S: AsyncRead + AsyncWrite + Unpin> Polled<S> {
    fn begin(stream: S, root: Option<Arc<dyn Object>>, holds_back: bool) -> io::Result<(Connection, Polled<S>)> {
        let shared = shared(root)?;
        let connection = Connection(shared.clone());
        let (room, out) = (vec![0; 65_536], Vec::new());
        Ok((connection, Polled { shared, stream, holds_back, room, out, sent: 0, has_failed: false }))
    }

    /// Writes what there is to be sent. `Ready` is true once nothing more will be.
    fn write(&mut self, context: &mut Context<'_>) -> Poll<bool> {
        loop {
            while self.sent < self.out.len() {
                match Pin::new(&mut self.stream).poll_write(context, &self.out[self.sent..]) {
                    Poll::Ready(Ok(count)) if count > 0 => self.sent += count,
                    Poll::Ready(_) => self.fail(),
                    Poll::Pending => return Poll::Pending,
                }
            }
            match self.shared.next() {
                Next::Send(bytes) => (self.out, self.sent) = (bytes, 0),
                Next::Wait if self.has_failed => return Poll::Ready(false),
                Next::Wait => match Pin::new(&mut self.stream).poll_flush(context) {
                    Poll::Ready(Err(_)) => self.fail(),
                    flushed => return flushed.map(|_| false),
                },
                Next::End => return Pin::new(&mut self.stream).poll_close(context).map(|_| true),
            }
        }
    }

    /// Nothing can be written any more; the stream is read to its end.
    fn fail(&mut self) {
        (self.out, self.sent, self.has_failed) = (Vec::new(), 0, true);
        self.shared.unheard();
    }

    /// Reads a piece: false where the stream has ended.
    fn read(&mut self, context: &mut Context<'_>) -> Poll<io::Result<bool>> {
        if self.shared.is_held(self.holds_back) {
            return Poll::Pending; // until what was said is written, or a call is answered
        }
        Pin::new(&mut self.stream).poll_read(context, &mut self.room).map_ok(|count| {
            self.shared.received(&self.room[..count]);
            count > 0
        })
    }
}

impl<S: AsyncRead + AsyncWrite + Unpin> Future for Polled<S> {
    type Output = ();

    fn poll(mut self: Pin<&mut Self>, context: &mut Context<'_>) -> Poll<()> {
        let it = &mut *self;
        it.shared.set_driver(Some(context.waker().clone()));
        for _ in 0..TURNS {
            it.shared.tell();
            if it.write(context) == Poll::Ready(true) {
                it.shared.lost();
                return Poll::Ready(());
            }
            match it.read(context) {
                Poll::Ready(Ok(true)) => {}
                Poll::Pending => return Poll::Pending,
                Poll::Ready(_) => {
                    it.shared.lost();
                    return Poll::Ready(());
                }
            }
        }
        context.waker().wake_by_ref();
        Poll::Pending
    }
}

impl<S> Drop for Polled<S> {
    fn drop(&mut self) {
        self.shared.set_driver(None);
        self.shared.lost();
    }
}
