//! Peers of Rust for the vat: a client that plays scenarios with a served registry, and a server of one, over `capnp-rpc`.
//!
//! - `schema.rs` stands in for code made of `registry.capnp`, `objects.rs` has the registry and its objects.
//! - `tasks.rs` runs what is to be done beside, `polled.rs` has a stream without a reactor. `peer.rs`: a conversation, from either side.
//! - `scenarios.rs`: what the client does, `soak.rs`: a drawn conversation.
pub mod objects;
pub mod peer;
pub mod polled;
pub mod scenarios;
pub mod schema;
pub mod soak;
pub mod tasks;
