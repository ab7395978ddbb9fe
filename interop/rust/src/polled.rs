//! A stream that is asked again and again: nothing else wakes who waits for it.
use futures::io::{AsyncRead, AsyncWrite};
use std::io::{self, ErrorKind, Read, Write};
use std::net::Shutdown;
use std::os::unix::net::UnixStream;
use std::pin::Pin;
use std::task::{Context, Poll};
use std::thread;
use std::time::Duration;

/// How long to wait where nothing came.
const PAUSE: Duration = Duration::from_micros(50);

pub struct Polled(UnixStream);

impl Polled {
    pub fn new(stream: &UnixStream) -> io::Result<Polled> {
        stream.set_nonblocking(true)?;
        Ok(Polled(stream.try_clone()?))
    }
}

fn again<T>(context: &Context, done: io::Result<T>) -> Poll<io::Result<T>> {
    match done {
        Err(error) if error.kind() == ErrorKind::WouldBlock => {
            thread::sleep(PAUSE);
            context.waker().wake_by_ref();
            Poll::Pending
        }
        done => Poll::Ready(done),
    }
}

impl AsyncRead for Polled {
    fn poll_read(mut self: Pin<&mut Self>, context: &mut Context, room: &mut [u8]) -> Poll<io::Result<usize>> {
        again(context, self.0.read(room))
    }
}

impl AsyncWrite for Polled {
    fn poll_write(mut self: Pin<&mut Self>, context: &mut Context, bytes: &[u8]) -> Poll<io::Result<usize>> {
        again(context, self.0.write(bytes))
    }

    fn poll_flush(mut self: Pin<&mut Self>, context: &mut Context) -> Poll<io::Result<()>> {
        again(context, self.0.flush())
    }

    fn poll_close(self: Pin<&mut Self>, _context: &mut Context) -> Poll<io::Result<()>> {
        Poll::Ready(self.0.shutdown(Shutdown::Write))
    }
}
