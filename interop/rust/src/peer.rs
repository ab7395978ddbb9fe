//! A conversation, from either side.
use crate::objects::Registry;
use crate::polled::Polled;
use crate::schema::Object;
use crate::tasks::{detach, run};
use capnp::Error;
use capnp::message::ReaderOptions;
use capnp_rpc::RpcSystem;
use capnp_rpc::rpc_twoparty_capnp::Side;
use capnp_rpc::twoparty::VatNetwork;
use std::io;
use std::os::unix::net::UnixStream;
use std::thread;
use std::time::Duration;

fn network(stream: &UnixStream, side: Side) -> io::Result<Box<VatNetwork<Polled>>> {
    Ok(Box::new(VatNetwork::new(Polled::new(stream)?, Polled::new(stream)?, side, ReaderOptions::new())))
}

/// The path in an address of the form `unix:PATH`.
pub fn path_in(address: &str) -> Result<&str, Error> {
    address.strip_prefix("unix:").ok_or_else(|| Error::failed("an address is unix:PATH".into()))
}

/// Whoever serves may be about to listen.
fn connected(path: &str) -> io::Result<UnixStream> {
    for _ in 0..100 {
        if let Ok(stream) = UnixStream::connect(path) {
            return Ok(stream);
        }
        thread::sleep(Duration::from_millis(20));
    }
    UnixStream::connect(path)
}

/// The registry that is served there. What the conversation wants is done beside.
pub fn connect(address: &str) -> Result<Object, Error> {
    let stream = connected(path_in(address)?)?;
    let mut system = RpcSystem::new(network(&stream, Side::Client)?, None);
    let registry = system.bootstrap(Side::Server);
    detach(system);
    Ok(registry)
}

/// Serves a registry to a client until that goes, and does then what is to be done before the registry goes too.
pub fn serve(stream: &UnixStream, then: impl FnOnce()) -> Result<(), Error> {
    let registry = Object::of(Registry::default());
    let mut system = RpcSystem::new(network(stream, Side::Server)?, Some(registry.into()));
    run(async {
        let ended = (&mut system).await;
        then();
        ended
    })
}
