//! Requests as they are sent, one after the other.

use super::blocks::{Others, without};
use super::check::{Requests, Scope, check_named};
use super::messages::{deletes, is_plain_chain, kind_of, nested, over, replaces, type_of};
use super::named::named;
use super::progress::Progress;
use super::requests::dumps_of;
use super::world::{Place, Stop, World};
use crate::make::program::plans::state_of_dumps;
use crate::netlink::message::{RTM_NEWQDISC, tcmsg_of};
use crate::netlink::{Fault, Refusal, Transport};
use crate::plan::objects::{KindRules, Model};
use nix::errno::Errno;
use std::thread::sleep;
use std::time::{Duration, Instant};

/// How long a request is tried again: what was deleted lives on until the kernel's readers of it are done.
pub(crate) const PATIENCE: Duration = Duration::from_secs(1);
pub(crate) const PAUSE: Duration = Duration::from_millis(10);

/// Requests that are sent.
pub(crate) struct Sending<'w, 's, T, L> {
    pub(crate) world: &'w mut World<'s, T, L>,
    pub(crate) place: &'w Place,
    /// What requests may be about.
    pub(crate) scope: Scope,
    // Something may have been deleted shortly before, so that what it held up passes.
    waits: bool,
    // A request was sent.
    has_sent: bool,
    // The last plan was sent to its end.
    is_carried_out: bool,
    // The way back goes on whatever signals come.
    minds_signals: bool,
    // What was there when somebody was asked whether it is to stay.
    left: Option<Vec<Vec<u8>>>,
    // Until then what was deleted may live on.
    settled: Instant,
    // What there is to be after each request, if that is compared, and the blocks that aren't.
    steps: Option<Steps>,
}

/// The model that plans are made by, as it goes through requests.
struct Steps {
    model: Model,
    others: Others,
    compared: usize,
}

impl<'w, 's, T: Transport, L: Transport> Sending<'w, 's, T, L> {
    /// Nothing is sent yet. If it `waits`, what is refused since something else was deleted shortly before is tried again.
    pub(crate) fn new(world: &'w mut World<'s, T, L>, place: &'w Place, waits: bool) -> Self {
        Sending {
            world,
            place,
            scope: Scope::of(place),
            waits,
            has_sent: false,
            is_carried_out: false,
            minds_signals: true,
            left: None,
            settled: Instant::now(),
            steps: None,
        }
    }

    /// Sends the requests of a plan, if all are as they are to be. What is to be deleted and isn't there is deleted; the kernel makes chains by itself.
    pub(crate) fn carry_out(&mut self, asked: Requests<'_>) -> Result<(), Stop> {
        let no_memory = || Stop::Unplanned(vec!["out of memory".to_string()]);
        let steps: Vec<Vec<u8>> =
            asked.requests.iter().map(|step| nested(step)).collect::<Option<_>>().ok_or_else(no_memory)?;
        self.scope.check(self.place, &steps)?;
        check_named(self.place, Requests { requests: &steps, ..asked })?;
        // While somebody was asked whether it is to stay, others may have changed something.
        self.look()?;
        self.is_carried_out = false;
        let progress = Progress::of(steps.len());
        let mut has_deleted = false;
        for step in &steps {
            if deletes(step) {
                self.delete(step)?;
                has_deleted = true;
            } else {
                if std::mem::take(&mut has_deleted) {
                    self.world.check_devices(self.place)?;
                }
                self.make(step)?;
            }
            progress.iter().for_each(Progress::pass);
            self.compare()?;
        }
        self.is_carried_out = true;
        Ok(())
    }

    /// True if the last plan was sent to its end.
    pub(crate) fn is_carried_out(&self) -> bool {
        self.is_carried_out
    }

    /// From here on what there is after each request is compared with this model, but for what is in these blocks.
    pub(crate) fn compare_with(&mut self, model: Model, others: Others) {
        self.steps = Some(Steps { model, others, compared: 0 });
    }

    /// How many requests were followed by that.
    pub(crate) fn compared(&self) -> Option<usize> {
        self.steps.as_ref().map(|steps| steps.compared)
    }

    fn compare(&mut self) -> Result<(), Stop> {
        let Some(Steps { model, others, compared }) = &mut self.steps else { return Ok(()) };
        let dump = without(&self.world.dump(&self.place.indices())?.messages, others);
        *compared += 1;
        let no_state = || Stop::Unplanned(vec![format!("after request {compared}: what there is shows no state")]);
        model.pass();
        let found = state_of_dumps(None, dumps_of(&dump)).ok().flatten().ok_or_else(no_state)?;
        let said = model.differences(&KindRules, &found).map_err(|_| no_state())?;
        let line = |it: &String| format!("after request {compared}, by the model: {}", named(&self.place.devices, it));
        if said.is_empty() { Ok(()) } else { Err(Stop::Differs(said.iter().map(line).collect())) }
    }

    /// Keeps what is there, while somebody is asked whether it is to stay.
    pub(crate) fn leave(&mut self, dumps: Vec<Vec<u8>>) {
        self.left = Some(dumps);
    }

    /// What was there then, if another program changed something since.
    pub(crate) fn changed_since(&mut self) -> Result<Option<Vec<Vec<u8>>>, Stop> {
        let Some(left) = self.left.take() else { return Ok(None) };
        match self.world.look(self.place) {
            Err(Stop::Other { .. }) => Ok(Some(left)),
            looked => looked.map(|()| None),
        }
    }

    /// True if a request was sent.
    pub(crate) fn has_sent(&self) -> bool {
        self.has_sent
    }

    /// From here on no signal ends it, and what was deleted is waited for.
    pub(crate) fn turn_back(&mut self) {
        self.steps = None;
        (self.minds_signals, self.waits) = (false, true);
    }

    // Signals, and what others do.
    fn look(&mut self) -> Result<(), Stop> {
        if self.minds_signals {
            self.world.check_signal()?;
        }
        self.world.look(self.place)
    }

    // Sends a request that makes or changes something.
    fn make(&mut self, request: &[u8]) -> Result<(), Stop> {
        match self.send(request) {
            Err(Stop::Refused { refusal, .. }) if is_plain_chain(request) && refusal.is(Errno::EEXIST) => {}
            answer => answer?,
        }
        self.look()
    }

    // Sends a request; again for a time, if what was deleted lives on. To Linux a class of taprio has taprio itself.
    fn send(&mut self, request: &[u8]) -> Result<(), Stop> {
        let until = Instant::now() + PATIENCE;
        self.has_sent = true;
        loop {
            let mut answer = self.world.kernel.request(request);
            if matches!(&answer, Err(Fault::Refused(refusal)) if refusal.is(Errno::EEXIST))
                && self.is_below_taprio(request)?
            {
                let over = over(request);
                self.scope.check(self.place, std::slice::from_ref(&over))?;
                answer = self.world.kernel.request(&over);
            }
            let refusal = match answer {
                Ok(_) => return Ok(()),
                Err(Fault::Refused(refusal)) => refusal,
                Err(fault) => return Err(Stop::Fault(fault)),
            };
            let passes = [Errno::EEXIST, Errno::EPERM, Errno::EBUSY].iter().any(|errno| refusal.is(*errno));
            if !(passes && self.waits && Instant::now() < until) {
                return Err(Stop::Refused { what: self.place.asked_by(request), refusal });
            }
            sleep(PAUSE);
            self.look()?;
        }
    }

    // True for the request of a qdisc in a class of taprio.
    fn is_below_taprio(&mut self, request: &[u8]) -> Result<bool, Stop> {
        let made = tcmsg_of(request).filter(|_| type_of(request) == RTM_NEWQDISC && !replaces(request));
        let Some(made) = made else { return Ok(false) };
        let is_above = |dump: &Vec<u8>| {
            let own = tcmsg_of(dump).filter(|own| own.index == made.index && own.handle == made.parent & 0xFFFF_0000);
            own.is_some() && kind_of(dump) == Some(b"taprio")
        };
        Ok(self.world.qdiscs()?.iter().any(is_above))
    }

    // What isn't there can't be deleted, and is no error.
    fn delete(&mut self, request: &[u8]) -> Result<(), Stop> {
        match self.send(request) {
            Err(Stop::Refused { refusal, .. }) if is_gone(&refusal) => {}
            answer => answer?,
        }
        self.settled = Instant::now() + PATIENCE;
        self.look()
    }

    /// True if what was deleted last lives on no longer.
    pub(crate) fn is_settled(&self) -> bool {
        Instant::now() >= self.settled
    }
}

fn is_gone(refusal: &Refusal) -> bool {
    [Errno::ENOENT, Errno::EINVAL].iter().any(|errno| refusal.is(*errno))
}
