//! The market's calls: Open, Submit, Run and Depth, with every refusal in the order of 01.
//!
//! The state is held in plain structs, which `table` lays out in bytes. A `Market` exists only once Open has taken its
//! settings, or as what a table says that is a market.

use crate::instrument::Instrument;
use crate::matching::{falls_short, next_outcome, Mode, Outcome};
use crate::message::{self, Message};
use crate::order::{Order, Side};
use crate::report::{self, CancelCause, CancelReject, Execution, Heading, Refused, RejectedOrder, Restatement};
use crate::session::{self, Change, NewOrder, Replacement, Request, SessionReject};
use crate::shape::is_id_character;

/// A report area must have this many bytes free before anything is written into it.
pub const FREE: usize = 1024;

/// Orders that one table holds.
pub const MOST_ORDERS: usize = 255;

/// Submit is refused above this next number.
pub const LAST_SUBMIT_NUMBER: u64 = 999_998_976;

/// The refusals, by their numbers in 01.
#[derive(Clone, Copy, Debug, PartialEq, Eq)]
pub enum Refusal {
    AreaTooSmall = 1,
    NotAMarket = 2,
    OrderInWork = 3,
    NumbersSpent = 4,
    Garbled = 5,
    SessionRejected = 6,
    OrderRejected = 7,
    ChangeRejected = 8,
    SettingWrong = 9,
    SideWrong = 10,
    NotAReport = 11,
    LengthWrong = 12,
    BlockWrong = 13,
    FeedSettingWrong = 17,
}

impl Refusal {
    pub fn number(self) -> u64 {
        self as u64
    }
}

/// An MPID and its mode, as lent to Open.
#[derive(Clone, Copy, Debug, PartialEq, Eq)]
pub struct Participant {
    pub mpid: u64,
    pub mode: u64,
}

/// Submit's answer: 0 or a refusal's number, and the report, which is empty for refusals 1 to 5.
#[derive(Clone, Debug, PartialEq, Eq)]
pub struct Submitted {
    pub number: u64,
    pub report: Vec<u8>,
}

/// Run's answer: 0 or a refusal's number, the bytes written, and how many reports and steps.
#[derive(Clone, Debug, Default, PartialEq, Eq)]
pub struct Ran {
    pub number: u64,
    pub bytes: Vec<u8>,
    pub reports: u64,
    pub steps: u64,
}

/// One level of the book; its quote is a yield in thousandths or a price in tenths.
#[derive(Clone, Copy, Debug, PartialEq, Eq)]
pub struct Level {
    pub quote: i64,
    pub total: u64,
    pub orders: u64,
}

/// The order in work, the 52 of its message, and whether it has been decided that its minimum can be reached, which is
/// not asked of an order without one.
#[derive(Clone, Debug, PartialEq, Eq)]
pub(crate) struct Work {
    pub(crate) order: usize,
    pub(crate) sending_time: Vec<u8>,
    pub(crate) is_decided: bool,
}

/// One bond or one share, one FIX port, up to 255 orders at a time. Record numbers are places in `orders`, counted from 1.
#[derive(Clone, Debug, PartialEq, Eq)]
pub struct Market {
    pub(crate) instrument: Instrument,
    pub(crate) venue: Vec<u8>,
    pub(crate) port: Vec<u8>,
    pub(crate) code: Vec<u8>,
    pub(crate) participants: Vec<(u64, Mode)>,
    pub(crate) next_number: u64,
    pub(crate) orders: Vec<Order>,
    pub(crate) work: Option<Work>,
}

impl Market {
    /// Open: a market without orders, or refusal 9 if a setting is wrong.
    pub fn open(
        instrument: Instrument,
        venue: &[u8],
        port: &[u8],
        code: &[u8],
        first_number: u64,
        participants: &[Participant],
    ) -> Result<Market, Refusal> {
        let modes = known_modes(participants).ok_or(Refusal::SettingWrong)?;
        let good = is_comp_id(venue)
            && is_comp_id(port)
            && instrument.is_code(code)
            && (1..=999_999_999).contains(&first_number);
        if !good {
            return Err(Refusal::SettingWrong);
        }
        Ok(Market {
            instrument,
            venue: venue.to_vec(),
            port: port.to_vec(),
            code: code.to_vec(),
            participants: modes,
            next_number: first_number,
            orders: Vec::new(),
            work: None,
        })
    }

    /// Submit: one message, its first report.
    pub fn submit(&mut self, message: &[u8], area: usize) -> Submitted {
        match self.submit_checked(message, area) {
            Ok(submitted) => submitted,
            Err(refusal) => Submitted { number: refusal.number(), report: Vec::new() },
        }
    }

    /// Submit, the refusals without a report given as errors.
    fn submit_checked(&mut self, message: &[u8], area: usize) -> Result<Submitted, Refusal> {
        if area < FREE {
            return Err(Refusal::AreaTooSmall);
        }
        if self.work.is_some() {
            return Err(Refusal::OrderInWork);
        }
        if self.next_number > LAST_SUBMIT_NUMBER {
            return Err(Refusal::NumbersSpent);
        }
        let message = message::parse(message).ok_or(Refusal::Garbled)?;
        Ok(self.submit_readable(&message))
    }

    /// Submit of a message that is not garbled: whatever comes of it, one report is written.
    fn submit_readable(&mut self, message: &Message) -> Submitted {
        let (number, report) = match session::request(self.instrument, message, &self.port, &self.venue) {
            Err(reject) => (Refusal::SessionRejected.number(), self.session_reject(message, reject)),
            Ok(Request::New(order)) => match self.why_not_new(&order) {
                Some(reason) => (Refusal::OrderRejected.number(), self.rejected(message, &order, reason)),
                None => (0, self.accept(message, &order)),
            },
            Ok(Request::Change(change)) => match self.why_not_change(&change) {
                Some(reason) => (Refusal::ChangeRejected.number(), self.cancel_reject(message, &change, reason)),
                None => (0, self.change(message, &change)),
            },
        };
        Submitted { number, report }
    }

    /// Run: up to `budget` steps, while an order is in work and the area has room.
    pub fn run(&mut self, area: usize, budget: u64) -> Ran {
        if area < FREE {
            return Ran { number: Refusal::AreaTooSmall.number(), ..Ran::default() };
        }
        let mut ran = Ran::default();
        while let Some(work) = self.work.clone() {
            if ran.steps == budget || area - ran.bytes.len() < FREE {
                break;
            }
            let reports = self.step(&work);
            ran.steps += 1;
            ran.reports += reports.len() as u64;
            ran.bytes.extend(reports.concat());
        }
        ran
    }

    /// Depth: the k-th level of a side, counted from the best, or none. Side 2 takes in every sell.
    pub fn depth(&self, side: u64, k: u64) -> Result<Option<Level>, Refusal> {
        if self.work.is_some() {
            return Err(Refusal::OrderInWork);
        }
        let side = match side {
            1 => Side::Buy,
            2 => Side::Sell,
            _ => return Err(Refusal::SideWrong),
        };
        let levels = self.levels(side);
        Ok(usize::try_from(k).ok().and_then(|k| levels.get(k).copied()))
    }

    /// The levels of the orders that stand with a side, best first.
    pub(crate) fn levels(&self, side: Side) -> Vec<Level> {
        let mut open: Vec<&Order> =
            self.orders.iter().filter(|order| order.side.stands_with(side) && order.open() > 0).collect();
        open.sort_by_key(|order| order.rank());
        let mut levels: Vec<Level> = Vec::new();
        for order in open {
            match levels.last_mut() {
                Some(level) if level.quote == order.quote => {
                    level.total += order.open();
                    level.orders += 1;
                }
                _ => levels.push(Level { quote: order.quote, total: order.open(), orders: 1 }),
            }
        }
        levels
    }

    /// What it trades.
    pub fn instrument(&self) -> Instrument {
        self.instrument
    }

    /// All orders that have a record, dead ones too.
    pub fn orders(&self) -> &[Order] {
        &self.orders
    }

    /// The record number of the order in work.
    pub fn in_work(&self) -> Option<usize> {
        self.work.as_ref().map(|work| work.order + 1)
    }

    /// Whether it has been decided that the order in work can reach its minimum.
    pub fn is_decided(&self) -> bool {
        self.work.as_ref().is_some_and(|work| work.is_decided)
    }

    /// The number that the next report will have.
    pub fn next_number(&self) -> u64 {
        self.next_number
    }

    /// The MPIDs given to Open.
    pub fn mpids(&self) -> Vec<u64> {
        self.participants.iter().map(|&(mpid, _)| mpid).collect()
    }

    pub fn venue(&self) -> &[u8] {
        &self.venue
    }

    pub fn port(&self) -> &[u8] {
        &self.port
    }

    pub fn code(&self) -> &[u8] {
        &self.code
    }

    fn mode_of(&self, mpid: u64) -> Mode {
        let listed = self.participants.iter().find(|&&(known, _)| known == mpid);
        listed.expect("an order's MPID is listed").1
    }

    fn position(&self, cl_ord_id: &[u8]) -> Option<usize> {
        self.orders.iter().position(|order| order.cl_ord_id == cl_ord_id)
    }

    /// Why a new order is rejected (103), if it is.
    fn why_not_new(&self, order: &NewOrder) -> Option<u64> {
        let is_listed = |mpid| self.participants.iter().any(|&(known, _)| known == mpid);
        if order.symbol != self.code {
            Some(1)
        } else if !order.mpid.is_none_or(is_listed) {
            Some(99)
        } else if self.position(order.cl_ord_id).is_some() {
            Some(6)
        } else if self.free_record().is_none() {
            Some(0)
        } else {
            None
        }
    }

    /// Why an F or a G is rejected (102), if it is.
    fn why_not_change(&self, change: &Change) -> Option<u64> {
        let found = self.position(change.orig_cl_ord_id).filter(|_| change.symbol == self.code);
        let Some(order) = found.map(|position| &self.orders[position]) else {
            return Some(1);
        };
        if change.side != order.side {
            Some(2)
        } else if order.open() == 0 {
            Some(0)
        } else if self.position(change.cl_ord_id).is_some()
            || change.replacement.is_some_and(|new| !new.leaves_open(order))
        {
            Some(2)
        } else {
            None
        }
    }

    /// Where a new order goes: behind the others while there is room, then to the first that has nothing open.
    fn free_record(&self) -> Option<usize> {
        if self.orders.len() < MOST_ORDERS {
            Some(self.orders.len())
        } else {
            self.orders.iter().position(|order| order.open() == 0)
        }
    }

    /// Takes a new order: it is in work. A dead one may have to go for it.
    fn accept(&mut self, message: &Message, new: &NewOrder) -> Vec<u8> {
        let order = Order {
            instrument: self.instrument,
            order_id: self.next_number,
            cl_ord_id: new.cl_ord_id.to_vec(),
            account: new.account.map(<[u8]>::to_vec),
            mpid: new.mpid,
            side: new.side,
            time_in_force: new.time_in_force,
            capacity: new.capacity,
            classification: new.classification,
            cash: new.cash,
            margin: new.margin,
            quote: new.quote,
            order_qty: new.order_qty,
            min_qty: new.min_qty,
            executed: 0,
            decremented: 0,
            canceled: 0,
            sum: 0,
            place: self.next_number,
        };
        let record = self.free_record().expect("a new order is taken only where there is room for it");
        match self.orders.get_mut(record) {
            Some(dead) => *dead = order,
            None => self.orders.push(order),
        }
        self.put_in_work(record, message.sending_time);
        self.write(message.sending_time, |market, heading| report::accepted(heading, &market.orders[record]))
    }

    /// Does what an F or a G asks, once it has been found good.
    fn change(&mut self, message: &Message, change: &Change) -> Vec<u8> {
        let position = self.position(change.orig_cl_ord_id).expect("a good change names an order");
        self.orders[position].cl_ord_id = change.cl_ord_id.to_vec();
        match change.replacement {
            Some(replacement) => self.replace(message, position, change.orig_cl_ord_id, replacement),
            None => {
                self.orders[position].cancel();
                let cause = CancelCause::Requested { orig_cl_ord_id: change.orig_cl_ord_id };
                self.write_canceled(message.sending_time, position, cause)
            }
        }
    }

    /// Gives an order its new terms, and a new place unless these keep it: it is in work.
    fn replace(&mut self, message: &Message, position: usize, orig: &[u8], new: Replacement) -> Vec<u8> {
        let order = &mut self.orders[position];
        if !new.keeps_place(order) {
            order.place = self.next_number;
        }
        order.quote = new.quote;
        order.order_qty = new.order_qty;
        self.put_in_work(position, message.sending_time);
        self.write_replaced(message.sending_time, position, orig, None)
    }

    fn put_in_work(&mut self, order: usize, sending_time: &[u8]) {
        self.work = Some(Work { order, sending_time: sending_time.to_vec(), is_decided: false });
    }

    /// One step: its reports in their order. The first step of an order with a minimum begins by deciding: one that
    /// can't reach it is canceled whole, and the work ends with that.
    fn step(&mut self, work: &Work) -> Vec<Vec<u8>> {
        if !work.is_decided && falls_short(&self.orders, work.order, |mpid| self.mode_of(mpid)) {
            self.work = None;
            let whole = CancelCause::Unrequested(Restatement::NotStaying);
            return vec![self.cancel(&work.sending_time, work.order, whole)];
        }
        let is_decided = self.orders[work.order].minimum() > 0;
        self.work = Some(Work { is_decided, ..work.clone() });
        self.matching_step(work)
    }

    /// One step of matching.
    fn matching_step(&mut self, work: &Work) -> Vec<Vec<u8>> {
        let time = &work.sending_time;
        let prevention = CancelCause::Unrequested(Restatement::TradePrevention);
        match next_outcome(&self.orders, work.order, |mpid| self.mode_of(mpid)) {
            Outcome::Trade { resting, quantity, at } => self.trade(work, resting, quantity, at),
            Outcome::Cancel { order } => vec![self.cancel(time, order, prevention)],
            Outcome::CancelBoth { resting } => {
                vec![self.cancel(time, resting, prevention), self.cancel(time, work.order, prevention)]
            }
            Outcome::Decrement { smaller, larger } => {
                let quantity = self.orders[smaller].open();
                vec![self.cancel(time, smaller, prevention), self.decrement(time, larger, quantity)]
            }
            Outcome::End { cancels_rest } => {
                self.work = None;
                let rest = CancelCause::Unrequested(Restatement::NotStaying);
                if cancels_rest {
                    vec![self.cancel(time, work.order, rest)]
                } else {
                    Vec::new()
                }
            }
        }
    }

    /// A trade: the resting order's report, then that of the order in work; both bear the first one's number as 880.
    fn trade(&mut self, work: &Work, resting: usize, quantity: u64, at: i64) -> Vec<Vec<u8>> {
        let match_number = self.next_number;
        for order in [resting, work.order] {
            self.orders[order].execute(quantity, at);
        }
        let sides = [(resting, work.order), (work.order, resting)];
        let mut reports = Vec::new();
        for (own, other) in sides {
            let execution = Execution {
                quantity,
                at,
                contra_mpid: self.orders[other].mpid,
                is_resting: own == resting,
                match_number,
            };
            reports.push(
                self.write(&work.sending_time, |market, heading| {
                    report::trade(heading, &market.orders[own], execution)
                }),
            );
        }
        reports
    }

    fn cancel(&mut self, time: &[u8], order: usize, cause: CancelCause) -> Vec<u8> {
        self.orders[order].cancel();
        self.write_canceled(time, order, cause)
    }

    fn decrement(&mut self, time: &[u8], order: usize, quantity: u64) -> Vec<u8> {
        self.orders[order].decrement(quantity);
        let same_id = self.orders[order].cl_ord_id.clone();
        self.write_replaced(time, order, &same_id, Some(Restatement::TradePrevention))
    }

    fn write_canceled(&mut self, time: &[u8], order: usize, cause: CancelCause) -> Vec<u8> {
        self.write(time, |market, heading| report::canceled(heading, &market.orders[order], cause))
    }

    fn write_replaced(&mut self, time: &[u8], order: usize, orig: &[u8], restatement: Option<Restatement>) -> Vec<u8> {
        self.write(time, |market, heading| report::replaced(heading, &market.orders[order], orig, restatement))
    }

    fn session_reject(&mut self, message: &Message, reject: SessionReject) -> Vec<u8> {
        let refused = Refused {
            msg_seq_num: message.msg_seq_num,
            msg_type: message.msg_type,
            tag: reject.tag,
            reason: reject.reason,
        };
        self.write(message.sending_time, |_, heading| report::session_reject(heading, refused))
    }

    fn rejected(&mut self, message: &Message, order: &NewOrder, reason: u64) -> Vec<u8> {
        let rejected = RejectedOrder {
            cl_ord_id: order.cl_ord_id,
            order_qty: order.order_qty,
            side: order.side.code(),
            symbol: order.symbol,
            reason,
        };
        self.write(message.sending_time, |_, heading| report::rejected(heading, rejected))
    }

    fn cancel_reject(&mut self, message: &Message, change: &Change, reason: u64) -> Vec<u8> {
        let position = self.position(change.orig_cl_ord_id);
        self.write(message.sending_time, |market, heading| {
            let reject = CancelReject {
                cl_ord_id: change.cl_ord_id,
                orig_cl_ord_id: change.orig_cl_ord_id,
                order: position.map(|position| &market.orders[position]),
                reason,
                response_to: if change.replacement.is_some() { b'2' } else { b'1' },
            };
            report::cancel_reject(heading, reject)
        })
    }

    /// Writes one report with the next number, which it uses up.
    fn write(&mut self, time: &[u8], report: impl FnOnce(&Market, Heading) -> Vec<u8>) -> Vec<u8> {
        let heading = Heading {
            instrument: self.instrument,
            venue: &self.venue,
            port: &self.port,
            code: &self.code,
            number: self.next_number,
            time,
        };
        let bytes = report(self, heading);
        self.next_number += 1;
        bytes
    }
}

impl Replacement {
    /// Whether the new OrderQty, a total, leaves something of `order` open.
    fn leaves_open(self, order: &Order) -> bool {
        self.order_qty > order.executed + order.decremented
    }

    /// Whether `order` keeps its place under these terms: the same quote, and an OrderQty not above the one in force.
    fn keeps_place(self, order: &Order) -> bool {
        self.quote == order.quote && self.order_qty <= order.order_qty
    }
}

/// 1 to 8 characters, none a space.
pub(crate) fn is_comp_id(id: &[u8]) -> bool {
    (1..=8).contains(&id.len()) && id.iter().all(|&byte| is_id_character(byte))
}

/// Open's list with its modes by name, if it has 1 to 8 entries, each in range, with distinct MPIDs.
pub(crate) fn known_modes(participants: &[Participant]) -> Option<Vec<(u64, Mode)>> {
    let mut mpids: Vec<u64> = participants.iter().map(|participant| participant.mpid).collect();
    mpids.sort_unstable();
    mpids.dedup();
    let good = (1..=8).contains(&participants.len())
        && mpids.len() == participants.len()
        && mpids.iter().all(|mpid| (1..=999_999).contains(mpid));
    if !good {
        return None;
    }
    participants.iter().map(|participant| Some((participant.mpid, Mode::from_number(participant.mode)?))).collect()
}
