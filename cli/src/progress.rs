//! A bar on the terminal for what takes longer than a second: a thread of its own draws it on standard error.

use std::io::{self, IsTerminal, Write};
use std::sync::{Arc, Condvar, Mutex, MutexGuard};
use std::thread::JoinHandle;
use std::time::{Duration, Instant};

const PATIENCE: Duration = Duration::from_secs(1);
const BETWEEN: Duration = Duration::from_millis(100);

/// What is being done: how many of how many bytes, where that is known.
#[derive(Clone, Default)]
struct Stage {
    words: String,
    done: u64,
    total: u64,
    ended: bool,
}

type Shared = Arc<(Mutex<Stage>, Condvar)>;

/// The progress of one command. Where standard error is no terminal, nothing is drawn.
pub struct Progress {
    shared: Shared,
    drawer: Option<JoinHandle<()>>,
}

fn locked(stage: &Mutex<Stage>) -> MutexGuard<'_, Stage> {
    stage.lock().unwrap_or_else(|poisoned| poisoned.into_inner())
}

impl Progress {
    pub fn start() -> Progress {
        let shared = Shared::default();
        let drawn = Arc::clone(&shared);
        let drawer = io::stderr()
            .is_terminal()
            .then(|| std::thread::spawn(move || draw(&drawn)));
        Progress { shared, drawer }
    }

    /// Something else is done from now on; a total of 0 is one that is not known.
    pub fn stage(&self, words: String, total: u64) {
        let mut stage = locked(&self.shared.0);
        (stage.words, stage.done, stage.total) = (words, 0, total);
    }

    /// So many bytes more are done.
    pub fn advance(&self, bytes: usize) {
        locked(&self.shared.0).done += bytes as u64;
    }
}

/// The bar goes before anything else is said.
impl Drop for Progress {
    fn drop(&mut self) {
        locked(&self.shared.0).ended = true;
        self.shared.1.notify_all();
        if let Some(drawer) = self.drawer.take() {
            let _ = drawer.join();
        }
    }
}

fn draw(shared: &Shared) {
    let start = Instant::now();
    let mut wait = PATIENCE;
    let mut drawn = false;
    let mut stage = locked(&shared.0);
    while !stage.ended {
        let waited = shared.1.wait_timeout_while(stage, wait, |stage| !stage.ended);
        stage = waited.unwrap_or_else(|poisoned| poisoned.into_inner()).0;
        if start.elapsed() >= PATIENCE && !stage.ended {
            let _ = write!(io::stderr(), "\r\x1b[K{}", line(&stage, start.elapsed()));
            (wait, drawn) = (BETWEEN, true);
        }
    }
    if drawn {
        let _ = write!(io::stderr(), "\r\x1b[K");
    }
}

fn line(stage: &Stage, time: Duration) -> String {
    const WIDTH: u64 = 30;
    let seconds = time.as_secs();
    if stage.total == 0 {
        let kib = stage.done / 1024;
        return match stage.done {
            0 => format!("{} ({seconds} s)", stage.words),
            _ => format!("{}: {kib} KiB ({seconds} s)", stage.words),
        };
    }
    let done = stage.done.min(stage.total);
    let full = (done * WIDTH / stage.total) as usize;
    let bar = "#".repeat(full) + &".".repeat(WIDTH as usize - full);
    let percent = done * 100 / stage.total;
    format!("{} [{bar}] {percent} % ({seconds} s)", stage.words)
}

#[cfg(test)]
mod tests {
    use super::*;

    #[test]
    fn the_bar_fills() {
        let stage = |done, total| Stage {
            words: "reading".into(),
            done,
            total,
            ended: false,
        };
        let second = Duration::from_secs(1);
        assert_eq!(line(&stage(0, 0), second), "reading (1 s)");
        assert_eq!(line(&stage(4096, 0), second), "reading: 4 KiB (1 s)");
        assert_eq!(
            line(&stage(1, 2), second),
            "reading [###############...............] 50 % (1 s)"
        );
        assert_eq!(
            line(&stage(9, 2), second),
            format!("reading [{}] 100 % (1 s)", "#".repeat(30))
        );
    }
}
