//! References for what an application passes.

use super::{Shared, State, key_of, sendable};
use crate::capability::{Capability, Promise};
use crate::event::Exception;
use crate::ids::{PromiseId, RefId};
use crate::object::Forward;
use crate::refusal::Refusal;
use crate::remote::Remote;
use crate::vat::Vat;
use std::slice;
use std::sync::Arc;

/// References that a command takes, and the promises among them.
#[derive(Default)]
struct Lent {
    refs: Vec<RefId>,
    promised: Vec<(Promise, PromiseId)>,
}

impl Shared {
    /// A command with references to capabilities, which the vat has as long as the command lasts.
    pub(super) fn lending<T>(
        self: &Arc<Self>,
        state: &mut State,
        given: &[Capability],
        command: impl FnOnce(&mut Vat, &[RefId]) -> Result<T, Refusal>,
    ) -> (Result<T, Exception>, Vec<(Promise, PromiseId)>) {
        let mut lent = Lent::default();
        let made = given.iter().try_for_each(|it| self.lend(state, it, &mut lent));
        let result = made.and_then(|()| command(&mut state.vat, &lent.refs)).map_err(Exception::from);
        let _ = state.vat.let_go(&lent.refs); // a vat that is down has none
        (result, lent.promised)
    }

    fn lend(self: &Arc<Self>, state: &mut State, given: &Capability, lent: &mut Lent) -> Result<(), Refusal> {
        let made = match given {
            Capability::Remote(remote) => self.lend_remote(state, remote)?,
            Capability::Object(object) => state.host(key_of(object), || object.clone())?,
            Capability::Promise(promise) => {
                let (id, made) = state.vat.promise()?;
                lent.promised.push((promise.clone(), id));
                made
            }
        };
        lent.refs.push(made);
        Ok(())
    }

    fn lend_remote(self: &Arc<Self>, state: &mut State, remote: &Remote) -> Result<RefId, Refusal> {
        match remote.reference() {
            Ok(reference) if Arc::ptr_eq(&reference.connection, self) => state.vat.clone_ref(reference.id),
            Ok(_) => state.host(remote.key(), || Arc::new(Forward(remote.clone()))),
            Err(exception) => {
                let (promise, made) = state.vat.promise()?;
                state.vat.reject(promise, exception.kind, sendable(&exception.reason))?;
                Ok(made)
            }
        }
    }

    /// Has promises that were passed settled here, once they are settled.
    pub(super) fn keep(self: &Arc<Self>, promised: Vec<(Promise, PromiseId)>) {
        for (promise, id) in promised {
            let connection = Arc::downgrade(self);
            promise.when_settled(move |settled| {
                if let Some(connection) = connection.upgrade() {
                    connection.settle(id, settled);
                }
            });
        }
    }

    fn settle(self: &Arc<Self>, promise: PromiseId, settled: &Result<Capability, Exception>) {
        let promised = self.with(|state| {
            let (resolved, promised) = match settled {
                Ok(it) => self.lending(state, slice::from_ref(it), |vat, refs| vat.resolve(promise, refs[0])),
                Err(exception) => (Err(exception.clone()), Vec::new()),
            };
            if let Err(Exception { kind, reason }) = resolved {
                let _ = state.vat.reject(promise, kind, sendable(&reason)); // a vat that is down refuses it
            }
            promised
        });
        self.keep(promised);
    }
}
