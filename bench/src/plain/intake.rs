//! The table of sessions and the rules of each message.

use super::ack::{Told, acknowledge};
use super::request::{Action, Packet, Range, read_packet};
use super::stores::{SLOTS, Store};
use super::{Outcome, SessionId};

const LEAST_PAGE: usize = 1024;
const MOST_FRAGMENT: u64 = 32768;

#[derive(Clone, Copy)]
pub struct Settings {
    pub site: u64,
    pub first_serial: u64,
    /// the most bytes of a bundle
    pub maximum: u64,
    pub uploads: bool,
    pub overwriting: bool,
    /// whether the approver is told of a whole bundle
    pub approver: bool,
}

enum Stage {
    Receiving,
    AtApprover,
    Ready { reply_address: Vec<u8> },
}

struct Session {
    serial: u64,
    destination: Vec<u8>,
    received: u64,
    total: Option<u64>,
    stage: Stage,
    stamp: u64,
}

pub struct Reply {
    pub outcome: Outcome,
    /// the bytes of the input that are done with
    pub used: usize,
    /// the bytes of the acknowledgement, at the front of the page
    pub length: usize,
    /// the serial of a session that has newly gone to the approver
    pub notice: Option<u64>,
}

pub enum Verdict<'a> {
    Yes(&'a [u8]),
    No(u32),
}

pub struct Intake<S> {
    settings: Settings,
    rows: [Option<Session>; SLOTS],
    next: u64,
    clock: u64,
    store: S,
}

impl Session {
    /// Why a fragment cannot be taken.
    fn fragment_fault(
        &self,
        settings: &Settings,
        range: Range,
        line: usize,
        content_length: u64,
        room: usize,
    ) -> Result<(), Outcome> {
        if matches!(self.stage, Stage::AtApprover) {
            return Err(Outcome::AtApprover);
        }
        let Range { first, last, total } = range;
        if first > last
            || last >= total
            || content_length != last - first + 1
            || self.total.is_some_and(|known| known != total)
        {
            return Err(Outcome::WrongRange { line });
        }
        if content_length > MOST_FRAGMENT || total > settings.maximum {
            return Err(Outcome::TooLarge);
        }
        if first > self.received {
            return Err(Outcome::Gap);
        }
        if (last + 1).saturating_sub(self.received) > room as u64 {
            return Err(Outcome::StoreFull);
        }
        Ok(())
    }

    fn reply_address(&self) -> &[u8] {
        match &self.stage {
            Stage::Ready { reply_address } => reply_address,
            _ => &[],
        }
    }
}

impl<S: Store> Intake<S> {
    pub fn new(mut store: S, settings: Settings) -> Option<Intake<S>> {
        if settings.maximum == 0 {
            return None;
        }
        for slot in 0..SLOTS {
            store.clear(slot);
        }
        Some(Intake {
            settings,
            rows: Default::default(),
            next: settings.first_serial,
            clock: 0,
            store,
        })
    }

    pub fn store(&self) -> &S {
        &self.store
    }

    fn id(&self, serial: u64) -> SessionId {
        SessionId { site: self.settings.site, serial }
    }

    fn find(&self, id: SessionId, path: &[u8]) -> Option<usize> {
        if id.site != self.settings.site {
            return None;
        }
        self.rows.iter().position(|row| {
            row.as_ref().is_some_and(|session| session.serial == id.serial && session.destination == path)
        })
    }

    /// Answers one message; the acknowledgement stands at the front of the page.
    pub fn message(&mut self, input: &[u8], page: &mut [u8]) -> Reply {
        if page.len() < LEAST_PAGE {
            return Reply { outcome: Outcome::ShortPage, used: 0, length: 0, notice: None };
        }
        let packet = match read_packet(input) {
            Ok(packet) => packet,
            Err(outcome) => {
                let length = acknowledge(page, outcome, &Told::default());
                return Reply { outcome, used: input.len(), length, notice: None };
            }
        };
        let used = packet.head_size + packet.body.len();
        let answered = |outcome, length| Reply { outcome, used, length, notice: None };
        let plain = |page: &mut [u8], outcome| answered(outcome, acknowledge(page, outcome, &Told::default()));
        if matches!(packet.action, Action::Ping) {
            return plain(page, Outcome::Done);
        }
        if !self.settings.uploads {
            return plain(page, Outcome::UploadsOff);
        }
        let ended = match packet.action {
            Action::Fragment { id, range, line } => return self.fragment(&packet, id, range, line, page),
            Action::Create { shared } => self.create(packet.path, shared),
            Action::Close { id } => self.close(id, packet.path).map(|()| id),
            Action::Cancel { id } => self.cancel(id, packet.path).map(|()| id),
            Action::Ping => return plain(page, Outcome::Done),
        };
        match ended {
            Ok(id) => {
                let created = matches!(packet.action, Action::Create { .. });
                let told = Told { created, id: Some(id), ..Told::default() };
                answered(Outcome::Done, acknowledge(page, Outcome::Done, &told))
            }
            Err(outcome) => plain(page, outcome),
        }
    }

    fn create(&mut self, path: &[u8], shared: bool) -> Result<SessionId, Outcome> {
        if !shared {
            return Err(Outcome::NoSharedProtocol);
        }
        if path.ends_with(b"/") {
            return Err(Outcome::FolderDestination);
        }
        if !self.settings.overwriting && self.store.published_length(path).is_some() {
            return Err(Outcome::DestinationStands);
        }
        let row = self.rows.iter().position(Option::is_none).ok_or(Outcome::TooManySessions)?;
        if self.next == u64::MAX {
            return Err(Outcome::SerialsSpent);
        }
        let serial = self.next;
        self.next += 1;
        self.store.clear(row);
        self.rows[row] = Some(Session {
            serial,
            destination: path.to_vec(),
            received: 0,
            total: None,
            stage: Stage::Receiving,
            stamp: self.clock,
        });
        Ok(self.id(serial))
    }

    fn fragment(&mut self, packet: &Packet, id: SessionId, range: Range, line: usize, page: &mut [u8]) -> Reply {
        let used = packet.head_size + packet.body.len();
        let Some(row) = self.find(id, packet.path) else {
            let length = acknowledge(page, Outcome::NoSession, &Told::default());
            return Reply { outcome: Outcome::NoSession, used, length, notice: None };
        };
        let outcome = match self.take(row, packet, range, line) {
            Ok(()) if packet.body.len() as u64 == packet.content_length => Outcome::Done,
            Ok(()) => Outcome::CutBody,
            Err(outcome) => outcome,
        };
        let mut notice = None;
        let Some(session) = &mut self.rows[row] else {
            return Reply { outcome, used, length: 0, notice };
        };
        if outcome == Outcome::Done {
            session.stamp = self.clock;
            if matches!(session.stage, Stage::Receiving) && session.total == Some(session.received) {
                if self.settings.approver {
                    session.stage = Stage::AtApprover;
                    notice = Some(session.serial);
                    return Reply { outcome, used, length: 0, notice };
                }
                session.stage = Stage::Ready { reply_address: Vec::new() };
            }
        }
        let told = Told {
            created: false,
            id: (outcome == Outcome::Done).then_some(id),
            received: Some(session.received),
            reply_address: session.reply_address(),
        };
        let length = acknowledge(page, outcome, &told);
        Reply { outcome, used, length, notice }
    }

    /// Keeps what a fragment brings beyond the bytes that are kept already.
    fn take(&mut self, row: usize, packet: &Packet, range: Range, line: usize) -> Result<(), Outcome> {
        let session = self.rows[row].as_mut().ok_or(Outcome::NoSession)?;
        session.fragment_fault(&self.settings, range, line, packet.content_length, self.store.room(row))?;
        let skip = (session.received - range.first).min(packet.body.len() as u64);
        self.store.add(row, &packet.body[skip as usize..]).map_err(|_| Outcome::StoreRefused)?;
        session.received = session.received.max(range.first + packet.body.len() as u64);
        session.total = Some(range.total);
        Ok(())
    }

    fn close(&mut self, id: SessionId, path: &[u8]) -> Result<(), Outcome> {
        let row = self.find(id, path).ok_or(Outcome::NoSession)?;
        let session = self.rows[row].as_ref().ok_or(Outcome::NoSession)?;
        match session.stage {
            Stage::AtApprover => return Err(Outcome::AtApprover),
            Stage::Receiving => return Err(Outcome::Incomplete),
            Stage::Ready { .. } => {}
        }
        if !self.settings.overwriting && self.store.published_length(path).is_some() {
            return Err(Outcome::DestinationStands);
        }
        if !self.store.can_publish(row, path) {
            return Err(Outcome::StoreFull);
        }
        self.store.publish(row, path).map_err(|_| Outcome::StoreRefused)?;
        self.rows[row] = None;
        Ok(())
    }

    fn cancel(&mut self, id: SessionId, path: &[u8]) -> Result<(), Outcome> {
        let row = self.find(id, path).ok_or(Outcome::NoSession)?;
        self.store.clear(row);
        self.rows[row] = None;
        Ok(())
    }

    /// Takes the approver's verdict on the session of a notice.
    pub fn answer(&mut self, serial: u64, verdict: Verdict, page: &mut [u8]) -> Reply {
        if page.len() < LEAST_PAGE {
            return Reply { outcome: Outcome::ShortPage, used: 0, length: 0, notice: Some(serial) };
        }
        let id = self.id(serial);
        let waiting = self.rows.iter_mut().flatten().find(|session| {
            session.serial == serial && matches!(session.stage, Stage::AtApprover)
        });
        let Some(session) = waiting else {
            let length = acknowledge(page, Outcome::NoSession, &Told::default());
            return Reply { outcome: Outcome::NoSession, used: 0, length, notice: None };
        };
        let outcome = match verdict {
            Verdict::Yes(address) if address.len() <= 256 && address.iter().all(|b| matches!(b, 0x21..=0x7e)) => {
                session.stage = Stage::Ready { reply_address: address.to_vec() };
                Outcome::Done
            }
            Verdict::Yes(_) => {
                session.stage = Stage::Receiving;
                Outcome::BadReplyAddress
            }
            Verdict::No(code) => {
                session.stage = Stage::Receiving;
                Outcome::Rejected { code }
            }
        };
        let told = Told {
            created: false,
            id: (outcome == Outcome::Done).then_some(id),
            received: Some(session.received),
            reply_address: session.reply_address(),
        };
        let length = acknowledge(page, outcome, &told);
        Reply { outcome, used: 0, length, notice: None }
    }

    /// Moves the clock and ends sessions without a message for 14 days; how many.
    pub fn tick(&mut self, reading: u64) -> usize {
        self.clock = self.clock.max(reading);
        let mut ended = 0;
        for row in 0..SLOTS {
            let expired = self.rows[row].as_ref().is_some_and(|session| self.clock - session.stamp >= 1_209_600);
            if expired {
                self.store.clear(row);
                self.rows[row] = None;
                ended += 1;
            }
        }
        ended
    }
}
