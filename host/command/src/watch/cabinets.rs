//! The two processes of a pair: started, told what to do, killed, and heard out.

use super::{Setting, CABINET, NAMES};
use std::io::{BufRead, BufReader, Write};
use std::process::{Child, Command, Stdio};
use std::sync::mpsc::{channel, Receiver, Sender};
use std::thread::JoinHandle;
use std::time::{Duration, Instant};

/// So long a process may take to end by itself.
const FAREWELL: Duration = Duration::from_secs(2);

/// A process, and the thread that hands on what it says.
struct Running {
    child: Child,
    reader: JoinHandle<()>,
}

/// Both processes, and the lines that they say.
pub struct Cabinets {
    setting: Setting,
    running: [Option<Running>; 2],
    lines: Receiver<String>,
    sender: Sender<String>,
}

impl Cabinets {
    pub fn new(setting: Setting) -> Self {
        let (sender, lines) = channel();
        Cabinets { setting, running: [None, None], lines, sender }
    }

    /// Starts a cabinet's process; its store is the one that it left, if it left one.
    pub fn start(&mut self, end: usize) -> Result<(), String> {
        let failed = |error: std::io::Error| format!("{} does not start: {error}", NAMES[end]);
        let Setting { directory, clock, labels, on_demand, forms } = &self.setting;
        let mut child = Command::new(std::env::current_exe().map_err(failed)?)
            .args([CABINET, "--name", NAMES[end], "--labels", &labels.to_string()])
            .args(["--since", &clock.micros().to_string(), "--form", forms.word()])
            .args(on_demand.then_some("--on-demand"))
            .arg("--")
            .arg(directory)
            .stdin(Stdio::piped())
            .stdout(Stdio::piped())
            .spawn()
            .map_err(failed)?;
        let stdout = child.stdout.take().ok_or("a process without output")?;
        let sender = self.sender.clone();
        let reader = std::thread::spawn(move || {
            let lines = BufReader::new(stdout).lines().map_while(Result::ok);
            lines.take_while(|line| sender.send(line.clone()).is_ok()).for_each(drop);
        });
        self.running[end] = Some(Running { child, reader });
        Ok(())
    }

    /// The next line that a process says, if one comes in time.
    pub fn next_line(&self, time: Duration) -> Option<String> {
        self.lines.recv_timeout(time).ok()
    }

    /// The lines that have come already.
    pub fn lines_so_far(&self) -> Vec<String> {
        self.lines.try_iter().collect()
    }

    pub fn order(&mut self, end: usize, order: &str) {
        if let Some(stdin) = self.running[end].as_mut().and_then(|running| running.child.stdin.as_mut()) {
            // A process that has just ended takes no orders; it is noticed elsewhere.
            let _ = writeln!(stdin, "{order}").and_then(|()| stdin.flush());
        }
    }

    /// Kills a process. Afterwards all that it said has come.
    pub fn kill(&mut self, end: usize) {
        if let Some(mut running) = self.running[end].take() {
            // Either it has ended, or it is ended now; both are what is wanted.
            let _ = running.child.kill();
            let _ = running.child.wait();
            let _ = running.reader.join();
        }
    }

    /// No process ends by itself before it is told to.
    pub fn check_running(&mut self) -> Result<(), String> {
        for (running, name) in self.running.iter_mut().zip(NAMES) {
            if let Some(Ok(Some(status))) = running.as_mut().map(|running| running.child.try_wait()) {
                return Err(format!("{name} ended by itself: {status}"));
            }
        }
        Ok(())
    }

    pub fn order_both(&mut self, order: &str) {
        for end in 0..NAMES.len() {
            self.order(end, order);
        }
    }

    /// Ends both processes: without orders they end by themselves.
    pub fn stop(&mut self) {
        for running in self.running.iter_mut().flatten() {
            drop(running.child.stdin.take());
        }
        let limit = Instant::now() + FAREWELL;
        while Instant::now() < limit && self.running.iter_mut().flatten().any(is_running) {
            std::thread::sleep(Duration::from_millis(5));
        }
        for end in 0..NAMES.len() {
            self.kill(end);
        }
    }
}

fn is_running(running: &mut Running) -> bool {
    matches!(running.child.try_wait(), Ok(None))
}
