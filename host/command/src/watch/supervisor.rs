//! The supervisor: starts both cabinets, tells what they do, cuts and kills, and closes the accounts.

use super::accounts::{self, Accounts};
use super::cabinets::Cabinets;
use super::event::{Event, Kind};
use super::log::Log;
use super::telling::Teller;
use super::{signals, Disturbances, Setting};
use crate::json::Value;
use crate::{complain, of_output, print, status, Ended};
use std::io::{self, ErrorKind};
use std::time::{Duration, Instant};

/// A pair that makes no headway for so long does not come to its end; nor does one that goes on and on.
const STALL: Duration = Duration::from_secs(60);
pub const LIMIT: Duration = Duration::from_secs(600);
/// So long both may take to say that they end.
const FAREWELL: Duration = Duration::from_secs(10);
const TICK: Duration = Duration::from_millis(50);
const PROGRESS: Duration = Duration::from_millis(500);
const RESTART_AFTER: Duration = Duration::from_millis(60);

/// What ends a run before its end.
enum Stop {
    Output(io::Error),
    Fault(String),
}

impl From<String> for Stop {
    fn from(what: String) -> Self {
        Stop::Fault(what)
    }
}

impl From<io::Error> for Stop {
    fn from(error: io::Error) -> Self {
        Stop::Output(error)
    }
}

/// What a cabinet last reported of itself.
#[derive(Clone, Copy, Debug, Default)]
struct Standing {
    accepted: u64,
    left_out: u64,
    held: u64,
    secured: u64,
    done: bool,
    ended: bool,
}

struct Supervisor {
    setting: Setting,
    disturbances: Disturbances,
    cabinets: Cabinets,
    log: Log,
    teller: Teller,
    standings: [Standing; 2],
    /// Up to when each cabinet has been heard; none of one that does not run.
    heard: [Option<Duration>; 2],
    next_progress: Duration,
    /// How many messages had arrived when the pair was last disturbed.
    disturbed_at: u64,
    /// How often a cut was ordered; one that comes as the run ends is not made.
    cut_orders: usize,
    cuts: usize,
    kills: usize,
    sent_again: usize,
}

/// Runs the pair to its end in its directory, and tells its result.
pub fn run(setting: Setting, disturbances: Disturbances, teller: Teller) -> Ended {
    let mut supervisor = Supervisor {
        cabinets: Cabinets::new(setting.clone()),
        setting,
        disturbances,
        log: Log::default(),
        teller,
        standings: Default::default(),
        heard: [None; 2],
        next_progress: PROGRESS,
        disturbed_at: 0,
        cut_orders: 0,
        cuts: 0,
        kills: 0,
        sent_again: 0,
    };
    let result = supervisor.supervise();
    supervisor.cabinets.stop();
    let result = supervisor.finish_log().and(result);
    if let Some(number) = signals::received() {
        complain(&format!("signal {number} ended the run before its end: there is no verdict"));
        return Ok(status::SIGNALLED + number);
    }
    match result {
        Err(Stop::Output(error)) if error.kind() == ErrorKind::BrokenPipe => Ok(status::DONE),
        Err(Stop::Output(error)) => Err(of_output(error)),
        Err(Stop::Fault(what)) => {
            complain(&what);
            supervisor.close_accounts(Some(what)).map(|_| status::REFUSED)
        }
        Ok(()) => supervisor.close_accounts(None),
    }
}

impl Supervisor {
    fn supervise(&mut self) -> Result<(), Stop> {
        self.teller.introduce(self.setting.on_demand)?;
        self.start(0)?;
        self.start(1)?;
        let end = Instant::now() + LIMIT;
        let mut headway = (0, Instant::now());
        while signals::received().is_none() {
            self.hear()?;
            self.disturb()?;
            if self.is_finished() {
                return self.let_end();
            }
            self.note_progress();
            self.tell_heard()?;
            if self.work_done() > headway.0 {
                headway = (self.work_done(), Instant::now());
            }
            if Instant::now() > end.min(headway.1 + STALL) {
                return Err(Stop::Fault("the pair does not come to its end".to_string()));
            }
        }
        Ok(())
    }

    fn start(&mut self, end: usize) -> Result<(), Stop> {
        self.heard[end] = Some(self.setting.clock.now());
        Ok(self.cabinets.start(end)?)
    }

    /// Tells what happened before the time up to which all that run have been heard, so that nothing comes too late.
    fn tell_heard(&mut self) -> Result<(), Stop> {
        let Some(time) = self.heard.iter().flatten().min() else { return Ok(()) };
        let events = self.log.take_before(*time);
        Ok(self.teller.tell(events)?)
    }

    /// Takes the next thing that a cabinet says; where nothing comes both are still to be there.
    fn hear(&mut self) -> Result<(), Stop> {
        match self.cabinets.next_line(TICK) {
            Some(line) => self.take_line(&line),
            None => self.cabinets.check_running()?,
        }
        Ok(())
    }

    /// What has been accepted and secured so far.
    fn work_done(&self) -> u64 {
        self.standings.iter().map(|standing| standing.accepted + standing.secured).sum()
    }

    /// Tells both to end, and hears them out before either closes its connection.
    fn let_end(&mut self) -> Result<(), Stop> {
        self.cabinets.order_both("stop");
        let limit = Instant::now() + FAREWELL;
        while Instant::now() < limit && !self.standings.iter().all(|standing| standing.ended) {
            self.hear()?;
        }
        Ok(())
    }

    /// Takes a report, or an event.
    fn take_line(&mut self, line: &str) {
        if let Some(report) = line.strip_prefix('#') {
            return self.take_report(report);
        }
        // The last line of a process that is killed may be cut off.
        if let Some(event) = Event::read(line) {
            self.take_event(event);
        }
    }

    fn take_event(&mut self, event: Event) {
        self.heard[event.end] = Some(event.at);
        match event.kind {
            Kind::Cuts => self.cuts += 1,
            Kind::SendsAgain => self.sent_again += 1,
            Kind::Ends => self.standings[event.end].ended = true,
            _ => {}
        }
        self.log.add(event);
    }

    /// A report is the cabinet, its time, and where it stands; one that is cut off is none.
    fn take_report(&mut self, report: &str) {
        let numbers: Result<Vec<u64>, _> = report.split(' ').map(str::parse).collect();
        let Ok([end @ 0..=1, micros, accepted, left_out, held, secured, done]) = numbers.as_deref() else { return };
        let (end, ended) = (*end as usize, self.standings[*end as usize].ended);
        let (accepted, left_out, held, secured) = (*accepted, *left_out, *held, *secured);
        self.heard[end] = Some(Duration::from_micros(*micros));
        self.standings[end] = Standing { accepted, left_out, held, secured, done: *done == 1, ended };
    }

    /// After every so many messages that arrived the connection is cut, or a process killed and started again.
    fn disturb(&mut self) -> Result<(), Stop> {
        let arrived = self.standings.iter().map(|standing| standing.secured).sum();
        let before = std::mem::replace(&mut self.disturbed_at, arrived);
        let is_due = |every: u64| before.checked_div(every) < arrived.checked_div(every);
        if is_due(self.disturbances.cut_every) {
            self.cabinets.order(self.cut_orders % 2, "cut");
            self.cut_orders += 1;
        }
        if is_due(self.disturbances.kill_every) {
            self.restart(self.kills % 2)?;
            self.kills += 1;
        }
        Ok(())
    }

    /// Kills a process and starts it again. Its end has the time from which on others may see it; what it said stands
    /// before that.
    fn restart(&mut self, end: usize) -> Result<(), Stop> {
        let killed = Event::new(self.setting.clock.now(), Kind::Killed, end, "is killed");
        self.cabinets.kill(end);
        for line in self.cabinets.lines_so_far() {
            match Event::read(&line).filter(|event| event.end == end) {
                Some(event) => self.take_event(Event { at: event.at.min(killed.at), ..event }),
                None => self.take_line(&line),
            }
        }
        self.log.add(killed);
        (self.heard[end], self.standings[end].done) = (None, false);
        std::thread::sleep(RESTART_AFTER);
        self.start(end)
    }

    fn is_finished(&self) -> bool {
        let [north, south] = self.standings;
        let arrived = |sender: Standing, receiver: Standing| sender.accepted == receiver.secured + sender.left_out;
        north.done && south.done && arrived(north, south) && arrived(south, north)
    }

    fn note_progress(&mut self) {
        let now = self.setting.clock.now();
        if now < self.next_progress {
            return;
        }
        self.next_progress = now + PROGRESS;
        let of = |from: usize| {
            let (Standing { accepted, left_out, held, .. }, receiver) =
                (self.standings[from], self.standings[1 - from]);
            let left_out = if left_out == 0 { String::new() } else { format!(", {left_out} left out") };
            format!("{} of {accepted} accepted are secured{left_out}, {held} held", receiver.secured)
        };
        let text = format!("progress: from north {}; from south {}", of(0), of(1));
        self.log.add(Event { at: now, kind: Kind::Works, end: 0, text });
    }

    /// Tells what is left of the log, once both processes have ended.
    fn finish_log(&mut self) -> Result<(), Stop> {
        for line in self.cabinets.lines_so_far() {
            self.take_line(&line);
        }
        let rest = self.log.take_all();
        Ok(self.teller.tell(rest)?)
    }

    /// Prints the accounts; the last line is the verdict.
    fn close_accounts(&self, fault: Option<String>) -> Ended {
        let accounts = match accounts::close(&self.setting) {
            Ok(accounts) => accounts,
            Err(what) => {
                complain(&what);
                print(&self.teller.without_accounts(fault.unwrap_or(what)))?;
                return Ok(status::REFUSED);
            }
        };
        let text = match self.teller {
            Teller::Story(_) => format!("\n{}{}", self.sums(), accounts.in_short()),
            Teller::All => format!("\n{}\n{}", self.sums(), accounts.in_full()),
            Teller::Json => format!("{}\n", self.json(&accounts, fault)),
        };
        print(&text)?;
        Ok(if accounts.are_right() { status::DONE } else { status::REFUSED })
    }

    fn sums(&self) -> String {
        let Supervisor { cuts, kills, sent_again, .. } = self;
        let seconds = self.setting.clock.now().as_secs_f64();
        format!("{cuts} cuts, {kills} kills, {sent_again} sent again, {seconds:.1} s\n")
    }

    fn json(&self, accounts: &Accounts, fault: Option<String>) -> Value {
        let mut record = vec![
            ("right", (accounts.are_right() && fault.is_none()).into()),
            ("fault", fault.into()),
            ("cuts", self.cuts.into()),
            ("kills", self.kills.into()),
            ("sent_again", self.sent_again.into()),
            ("milliseconds", Value::Number(self.setting.clock.now().as_millis() as u64)),
        ];
        record.extend(accounts.json());
        Value::Record(record)
    }
}
