//! Where references lead.

use crate::ffi::LovendakPlace;
use crate::ids::ObjectId;
use std::fmt;

/// Where calls through a reference go.
#[derive(Clone, Copy, Debug, PartialEq, Eq)]
pub struct Lead {
    /// To what.
    pub place: Place,
    /// Whether they wait under an embargo before.
    pub is_embargoed: bool,
}

/// To what a reference leads. Two references that lead to one import lead to one object of the peer.
#[derive(Clone, Copy, Debug, PartialEq, Eq)]
pub enum Place {
    /// An object of this application.
    Own(ObjectId),
    /// A promise of this application that is not settled.
    OwnPromise,
    /// The results of a call to this application that did not end.
    OwnCall,
    /// What the peer exports by an id.
    Import {
        /// The id.
        id: u32,
        /// Whether it is a promise that no Resolve has settled yet.
        is_promise: bool,
    },
    /// What stands in the results of that question to the peer.
    Answer(u32),
    /// Nothing: each call fails.
    Broken(Broken),
}

impl Place {
    /// The place of the peer that it is, if it is one. A [`Resolved`](crate::Event::Resolved) of it says that more is known of it.
    pub fn of_peer(self) -> Option<PeerPlace> {
        match self {
            Place::Import { id, .. } => Some(PeerPlace::Import(id)),
            Place::Answer(question) => Some(PeerPlace::Answer(question)),
            _ => None,
        }
    }
}

/// Why a reference leads nowhere.
#[derive(Clone, Copy, Debug, PartialEq, Eq)]
pub enum Broken {
    /// It stands for null.
    Null,
    /// There is something else than a capability.
    NotACapability,
    /// Its promise was broken.
    Promise,
}

/// A place that the peer has, by its number.
#[derive(Clone, Copy, Debug, PartialEq, Eq, Hash)]
pub enum PeerPlace {
    /// What the peer exports by that id.
    Import(u32),
    /// What stands in the results of that question to the peer.
    Answer(u32),
}

impl fmt::Display for PeerPlace {
    fn fmt(&self, f: &mut fmt::Formatter<'_>) -> fmt::Result {
        match self {
            PeerPlace::Import(id) => write!(f, "import {id}"),
            PeerPlace::Answer(question) => write!(f, "the answer to question {question}"),
        }
    }
}

// The numbers of the kinds of places, and those of the reasons.
const OWN: u32 = 1;
const OWN_PROMISE: u32 = 2;
const OWN_CALL: u32 = 3;
const IMPORT: u32 = 4;
const ANSWER: u32 = 5;
const NULL: u32 = 1;
const NOT_A_CAPABILITY: u32 = 2;

impl PeerPlace {
    /// The place that an event names.
    pub(crate) fn of(kind: u32, number: u64) -> PeerPlace {
        match kind {
            IMPORT => PeerPlace::Import(number as u32),
            _ => PeerPlace::Answer(number as u32),
        }
    }
}

impl Lead {
    pub(crate) fn of(place: &LovendakPlace) -> Lead {
        Lead { place: Place::of(place), is_embargoed: place.is_embargoed == 1 }
    }
}

impl Place {
    fn of(place: &LovendakPlace) -> Place {
        match place.kind {
            OWN => Place::Own(ObjectId(place.number)),
            OWN_PROMISE => Place::OwnPromise,
            OWN_CALL => Place::OwnCall,
            IMPORT => Place::Import { id: place.number as u32, is_promise: place.is_promise == 1 },
            ANSWER => Place::Answer(place.number as u32),
            _ => Place::Broken(match place.reason {
                NULL => Broken::Null,
                NOT_A_CAPABILITY => Broken::NotACapability,
                _ => Broken::Promise,
            }),
        }
    }
}
