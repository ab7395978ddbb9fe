//! A drawn conversation. Lines have the number of the reference through which they are printed, and which of its lines it is.
use crate::objects::{Sheet, print};
use crate::scenarios::{Done, give, lines, on_air, own, told};
use crate::schema::{Call, Object, REGISTRY, registry};
use crate::tasks::sleep;
use capnp::Error;
use futures::future::{join_all, try_join_all};
use std::collections::{BTreeMap, BTreeSet};

const STEPS: u32 = 600;
const REGISTRIES: usize = 4;

/// What leads nowhere but to a printer. A promise of a registry may lead only to what has a higher number than that registry, so that
/// nothing leads to itself.
const PRINTER: usize = 1000;

struct Channel {
    printer: Object,
    leads: usize,
    number: u64,
    lines: u64,
    /// Whether a call through it was let go before it had ended, which may be before it was sent.
    cancels: bool,
}

/// What was printed through a channel, and whether all of it has to come.
#[derive(Clone, Copy)]
struct Printed {
    lines: u64,
    whole: bool,
}

struct Soak {
    drawn: u64,
    numbers: u64,
    registries: Vec<Object>,
    channels: Vec<Channel>,
    sheets: Vec<Sheet>,
    at_peer: Vec<Object>,
    calls: Vec<Call>,
    /// Calls that may fail.
    tries: Vec<Call>,
    printed: BTreeMap<u64, Printed>,
}

impl Soak {
    fn new(registry: Object, seed: u64) -> Soak {
        Soak {
            drawn: seed,
            numbers: 0,
            registries: vec![registry],
            channels: Vec::new(),
            sheets: Vec::new(),
            at_peer: Vec::new(),
            calls: Vec::new(),
            tries: Vec::new(),
            printed: BTreeMap::new(),
        }
    }

    /// The high bits of a linear congruence.
    fn draw(&mut self, below: usize) -> usize {
        self.drawn = self.drawn.wrapping_mul(6_364_136_223_846_793_005).wrapping_add(1_442_695_040_888_963_407);
        (self.drawn >> 33) as usize % below
    }

    fn registry(&mut self) -> Object {
        let at = self.draw(self.registries.len());
        self.registries[at].clone()
    }

    fn hold(&mut self, printer: Object, leads: usize) {
        self.numbers += 1;
        self.channels.push(Channel { printer, leads, number: self.numbers, lines: 0, cancels: false });
    }

    /// Holds what a call will give.
    fn hold_of(&mut self, call: Call, leads: usize) -> Object {
        let printer = call.object(0);
        self.calls.push(call);
        self.hold(printer.clone(), leads);
        printer
    }

    fn own_printer(&mut self) -> Object {
        let (printer, sheet) = own();
        self.sheets.push(sheet);
        printer
    }

    fn print(&mut self, at: usize) {
        let cancels = self.draw(20) == 0;
        let channel = &mut self.channels[at];
        channel.lines += 1;
        channel.cancels |= cancels;
        let call = print(&channel.printer, channel.number << 32 | channel.lines);
        self.printed.insert(channel.number, Printed { lines: channel.lines, whole: !channel.cancels });
        if !cancels {
            self.calls.push(call);
        }
    }

    /// A line through a reference of the peer's own.
    fn tell_peer(&mut self, printer: &Object) {
        self.numbers += 1;
        self.printed.insert(self.numbers, Printed { lines: 1, whole: true });
        let call = told(&self.registry(), printer, self.numbers << 32 | 1);
        self.calls.push(call);
    }

    fn ask(&mut self, method: u16) {
        let call = self.registry().ask(REGISTRY, method);
        self.calls.push(call);
    }

    fn act(&mut self) {
        if self.channels.is_empty() {
            let printer = self.own_printer();
            return self.hold(printer, PRINTER);
        }
        let at = self.draw(self.channels.len());
        let (printer, leads) = (self.channels[at].printer.clone(), self.channels[at].leads);
        match self.draw(22) {
            0 => {
                let printer = self.own_printer();
                self.hold(printer, PRINTER);
            }
            1 => {
                let call = self.registry().ask(REGISTRY, registry::MAKE_PRINTER);
                let printer = self.hold_of(call, PRINTER);
                self.at_peer.push(printer);
            }
            2 => {
                let of = self.draw(REGISTRIES);
                let call = self.registries[of].ask(REGISTRY, registry::AWAIT_PRINTER);
                self.hold_of(call, of);
            }
            3 => {
                let of = self.draw(REGISTRIES);
                if leads > of {
                    self.tries.push(give(&self.registries[of], registry::PUBLISH, &printer));
                }
            }
            4 => {
                let call = give(&self.registry(), registry::SAME, &printer);
                self.hold_of(call, leads);
            }
            5 => self.tell_peer(&printer),
            6 => {
                let call = give(&self.registry(), registry::SUBSCRIBE, &printer);
                self.calls.push(call);
            }
            7 => {
                let call = on_air(&self.registry(), 0);
                self.calls.push(call);
            }
            8 => self.ask(registry::UNSUBSCRIBE),
            9 => {
                self.channels.swap_remove(at);
            }
            _ => self.print(at),
        }
    }

    /// All promises lead somewhere in the end, and all calls end.
    async fn settle(&mut self) -> Done {
        for of in 0..REGISTRIES {
            let printer = self.own_printer();
            self.tries.push(give(&self.registries[of], registry::PUBLISH, &printer));
        }
        try_join_all(self.calls.drain(..).map(Call::end)).await?;
        join_all(self.tries.drain(..).map(Call::end)).await;
        let last = self.registries.iter().map(|registry| registry.ask(REGISTRY, registry::UNSUBSCRIBE).end());
        try_join_all(last).await?;
        Ok(())
    }

    /// Of each channel all lines came to one printer, in order; of one with a call that was let go some may be missing.
    async fn compare(&self) -> Done {
        let mut seen = BTreeSet::new();
        for sheet in &self.sheets {
            self.compare_with(&sheet.borrow(), &mut seen)?;
        }
        for printer in &self.at_peer {
            self.compare_with(&lines(printer).await?, &mut seen)?;
        }
        match self.printed.iter().find(|(number, printed)| printed.whole && !seen.contains(number)) {
            Some((number, _)) => Err(Error::failed(format!("nothing came through {number}"))),
            None => Ok(()),
        }
    }

    fn compare_with(&self, lines: &[u64], seen: &mut BTreeSet<u64>) -> Done {
        let mut last = BTreeMap::new();
        for line in lines.iter().filter(|line| **line != 0) {
            let (number, index) = (line >> 32, line & 0xffff_ffff);
            let before = last.insert(number, index).unwrap_or(0);
            let follows = if self.printed[&number].whole { index == before + 1 } else { index > before };
            if !follows {
                return Err(Error::failed(format!("through {number}: {index} behind {before}")));
            }
        }
        for (number, index) in last {
            let all = self.printed[&number];
            if !seen.insert(number) || all.whole && all.lines != index {
                return Err(Error::failed(format!("through {number}: at two printers, or only {index} came")));
            }
        }
        Ok(())
    }
}

pub async fn soak(registry: Object, seed: u64) -> Done {
    let mut soak = Soak::new(registry, seed);
    for _ in 1..REGISTRIES {
        let call = soak.registry().ask(REGISTRY, registry::MAKE_REGISTRY);
        soak.registries.push(call.object(0));
        soak.calls.push(call);
    }
    for _ in 0..STEPS {
        soak.act();
        if soak.draw(20) == 0 {
            let milliseconds = soak.draw(3) as u64;
            sleep(milliseconds).await;
        }
    }
    soak.settle().await?;
    soak.compare().await
}
