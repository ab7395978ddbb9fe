//! A connection with a peer over a stream of `std::io`, and a server of such.

use crate::object::Object;
use crate::refusal::Refusal;
use crate::remote::{Call, Remote, Unpark};
use crate::shared::{Next, Shared};
use crate::vat::Finishes;
use std::io::{self, ErrorKind, Read, Write};
use std::net::{Shutdown, TcpListener, TcpStream, ToSocketAddrs};
use std::os::unix::net::UnixStream;
use std::sync::Arc;
use std::task::Waker;
use std::thread;

/// A stream over which a connection goes.
pub trait Stream: Read + Write + Send + Sized + 'static {
    /// The same stream once more, for another thread.
    fn try_clone(&self) -> io::Result<Self>;

    /// Ends both directions. A read that another thread waits in has to return.
    fn shutdown(&self) -> io::Result<()>;
}

impl Stream for TcpStream {
    fn try_clone(&self) -> io::Result<TcpStream> {
        TcpStream::try_clone(self)
    }

    fn shutdown(&self) -> io::Result<()> {
        TcpStream::shutdown(self, Shutdown::Both)
    }
}

impl Stream for UnixStream {
    fn try_clone(&self) -> io::Result<UnixStream> {
        UnixStream::try_clone(self)
    }

    fn shutdown(&self) -> io::Result<()> {
        UnixStream::shutdown(self, Shutdown::Both)
    }
}

/// A connection with a peer, over which objects call each other. Clones are the same connection, and it goes on without any, until it is
/// closed or the peer ends it. Nothing connects again by itself.
///
/// Two threads work for it: one reads and has calls served, one writes. With the feature `futures-io` a future does both, over any
/// stream of that crate.
///
/// A server doubles numbers, and tells a listener which:
///
/// ```
/// use lovendak::{Answer, Capability, Connection, Contents, Incoming, Object, Outcome, Remote, Struct};
/// use std::os::unix::net::UnixStream;
/// use std::sync::Arc;
///
/// # const DOUBLER: u64 = 7;
/// struct Doubler;
///
/// impl Object for Doubler {
///     fn call(&self, call: Incoming, answer: Answer) {
///         answer.send(double(&call.params));
///     }
/// }
///
/// fn double(params: &Contents<Capability>) -> Outcome {
///     let params = params.root()?;
///     let number: u64 = params.number(0);
///     if let Some(listener) = params.reference(0)?.and_then(Capability::into_remote) {
///         listener.call(DOUBLER, 0, Struct::default().set_number(0, number)).then(|_| ());
///     }
///     Ok(Contents::of(Struct::default().set_number(0, 2 * number))?)
/// }
///
/// # fn main() -> Result<(), Box<dyn std::error::Error>> {
/// let (here, there) = UnixStream::pair()?;
/// Connection::accepted(there, Arc::new(Doubler))?;
/// let connection = Connection::connected(here, None)?;
/// let doubler = connection.bootstrap();
/// let call = doubler.call(DOUBLER, 0, Struct::default().set_number(0, 21u64)); // is under way
/// let results = call.wait()?; // or `call.await`
/// assert_eq!(results.root()?.number::<u64>(0), 42);
/// connection.close();
/// # Ok(())
/// # }
/// ```
#[derive(Clone)]
pub struct Connection(pub(crate) Arc<Shared>);

impl Connection {
    /// A connection over TCP. `root` is what the peer gets by its bootstrap, if it asks for it.
    pub fn connect(address: impl ToSocketAddrs, root: Option<Arc<dyn Object>>) -> io::Result<Connection> {
        let stream = TcpStream::connect(address)?;
        stream.set_nodelay(true)?;
        Connection::connected(stream, root)
    }

    /// A connection over a stream whose peer accepted it. It reads on while the peer does not read, so that the two never wait for each
    /// other.
    pub fn connected(stream: impl Stream, root: Option<Arc<dyn Object>>) -> io::Result<Connection> {
        begin(stream, root, false)
    }

    /// A connection over a stream that was accepted, with its bootstrap object. While the peer does not read, it is not heard.
    pub fn accepted(stream: impl Stream, root: Arc<dyn Object>) -> io::Result<Connection> {
        begin(stream, Some(root), true)
    }

    /// The peer's bootstrap object, which can be called at once. Calls fail if it has none, or if the connection has ended.
    pub fn bootstrap(&self) -> Remote {
        let call = Call::new(&self.0, self.0.bootstrap());
        let root = call.at(&[]);
        call.then(|_| ());
        root
    }

    /// When the Finish goes of a call that goes out from now on and is given up before it has ended. From the beginning it goes at once.
    pub fn set_finishes(&self, when: Finishes) {
        self.0.set_finishes(when);
    }

    /// Sets limits of what is held of the peer: the words of its calls that are not answered, and the bytes that wait for it in the vat.
    /// While one of them is exceeded, no more of the peer is read. A new connection has no limits. Limits that are too low for what the two
    /// applications ask of each other at a time stop both, and the end of the stream is not seen meanwhile.
    pub fn set_limits(&self, words: u64, bytes: u64) {
        self.0.set_limits(words, bytes);
    }

    /// Ends the connection, once what was said before is written. Calls that are open fail with `Disconnected`.
    pub fn close(&self) {
        self.0.close();
    }

    /// Whether it has ended, on whichever side.
    pub fn has_ended(&self) -> bool {
        self.0.has_ended()
    }

    /// Waits until it has ended. An object that serves a call must not.
    pub fn wait_ended(&self) {
        self.0.wait_ended();
    }
}

/// Accepts connections for good, over each of which a client gets what the function gives. An error of a single connection ends that
/// one alone; one of the listener ends this. A server that sets limits accepts streams itself, for [`Connection::accepted`].
///
/// ```no_run
/// use lovendak::Object;
/// use std::net::TcpListener;
/// use std::sync::Arc;
///
/// fn serve_all(root: Arc<dyn Object>) -> std::io::Result<()> {
///     let listener = TcpListener::bind("127.0.0.1:4000")?;
///     lovendak::serve(&listener, || root.clone())
/// }
/// ```
pub fn serve(listener: &TcpListener, mut root: impl FnMut() -> Arc<dyn Object>) -> io::Result<()> {
    loop {
        let (stream, _) = listener.accept()?;
        // One that has ended already, or for which there are no threads, is dropped, and so ends for the client too.
        let _ = stream.set_nodelay(true).and_then(|()| Connection::accepted(stream, root()));
    }
}

pub(crate) fn shared(root: Option<Arc<dyn Object>>) -> io::Result<Arc<Shared>> {
    Shared::new(root).map_err(|refusal: Refusal| io::Error::new(ErrorKind::OutOfMemory, refusal))
}

fn begin(stream: impl Stream, root: Option<Arc<dyn Object>>, holds_back: bool) -> io::Result<Connection> {
    let shared = shared(root)?;
    let (reads, writes) = (stream.try_clone()?, shared.clone());
    thread::Builder::new().name("lovendak writes".into()).spawn(move || write(&writes, stream))?;
    let spawned = {
        let shared = shared.clone();
        thread::Builder::new().name("lovendak reads".into()).spawn(move || read(&shared, reads, holds_back))
    };
    if spawned.is_err() {
        shared.close(); // for the thread that writes
    }
    spawned.map(|_| Connection(shared))
}

fn read(shared: &Arc<Shared>, mut stream: impl Stream, holds_back: bool) {
    let mut room = vec![0; 65_536];
    loop {
        shared.wait_readable(holds_back);
        match stream.read(&mut room) {
            Ok(0) => break,
            Ok(count) => shared.received(&room[..count]),
            Err(error) if error.kind() == ErrorKind::Interrupted => {}
            Err(_) => break,
        }
    }
    shared.lost();
}

fn write(shared: &Arc<Shared>, mut stream: impl Stream) {
    shared.set_driver(Some(Waker::from(Arc::new(Unpark(thread::current())))));
    loop {
        shared.tell();
        match shared.next() {
            Next::Send(bytes) => {
                if stream.write_all(&bytes).and_then(|()| stream.flush()).is_err() {
                    shared.unheard();
                    let _ = stream.shutdown(); // so that the thread that reads comes to an end
                }
            }
            Next::Wait => thread::park(),
            Next::End => break,
        }
    }
    shared.lost();
    let _ = stream.shutdown(); // one that is not connected any more
}
