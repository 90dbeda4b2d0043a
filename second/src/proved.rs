//! Runs a proved program.

use std::env;
use std::io::{self, Read, Write};
use std::path::{absolute, Path, PathBuf};
use std::process::{ChildStdin, ChildStdout, Command, ExitStatus, Stdio};
use std::sync::mpsc;
use std::thread;
use std::time::Duration;

/// Far more than a batch takes, even under an emulator on a busy machine.
const PATIENCE: Duration = Duration::from_secs(300);

#[derive(Clone, Debug)]
pub struct Ran {
    pub status: ExitStatus,
    pub stdout: Vec<u8>,
    pub stderr: Vec<u8>,
}

impl Ran {
    /// A program ends with status 0 and writes nothing to standard error, whatever it is given.
    pub fn went_well(&self) -> bool {
        self.status.success() && self.stderr.is_empty()
    }

    pub fn end(&self) -> String {
        let said = String::from_utf8_lossy(&self.stderr);
        format!("{}, standard error: {said:?}", self.status)
    }
}

/// The program of that name in target/bin, or the one that the environment names instead.
pub fn program(name: &str) -> Result<Command, String> {
    let path = named_instead(name).unwrap_or_else(|| top().join("target/bin").join(name));
    if !path.is_file() {
        return Err(format!(
            "there is no program {}: it has to be built first",
            path.display()
        ));
    }
    let mut command = Command::new(top().join(".ci/run-bin"));
    command.arg(path);
    Ok(command)
}

/// What the environment variable of the program's name in capitals (ANSWERS, TRACE, REDUCE, SHRINK) says, to try the
/// comparison itself on another program.
pub fn named_instead(name: &str) -> Option<PathBuf> {
    let named = PathBuf::from(env::var_os(name.to_uppercase())?);
    // There is none for an empty name, which is then found to be no program.
    Some(absolute(&named).unwrap_or(named))
}

fn top() -> PathBuf {
    let own = Path::new(env!("CARGO_MANIFEST_DIR"));
    own.parent().expect("a folder above").to_path_buf()
}

/// Starts the program, and leaves its standard input to `feed` and its standard output to `drain`.
pub fn run(
    mut command: Command,
    feed: impl FnOnce(ChildStdin) + Send + 'static,
    drain: impl FnOnce(ChildStdout) -> io::Result<Vec<u8>> + Send + 'static,
) -> Result<Ran, String> {
    let mut child = command
        .stdin(Stdio::piped())
        .stdout(Stdio::piped())
        .stderr(Stdio::piped())
        .spawn()
        .map_err(|error| format!("{command:?} cannot be started: {error}"))?;
    // All at once, or both sides could wait on a full pipe.
    let to = child.stdin.take().expect("its standard input");
    let from = child.stdout.take().expect("its standard output");
    let mut errors = child.stderr.take().expect("its standard error");
    thread::spawn(move || feed(to));
    let said = thread::spawn(move || {
        let mut bytes = Vec::new();
        errors.read_to_end(&mut bytes).map(|_| bytes)
    });
    let (done, wait) = mpsc::channel();
    thread::spawn(move || {
        let _ = done.send(drain(from));
    });
    match wait.recv_timeout(PATIENCE) {
        Ok(read) => Ok(Ran {
            stdout: read.expect("its standard output can be read"),
            status: child.wait().expect("its status can be had"),
            stderr: said
                .join()
                .expect("the reader ends")
                .expect("its standard error can be read"),
        }),
        Err(_) => {
            let _ = child.kill();
            Err(format!(
                "{command:?} did not end within {} s",
                PATIENCE.as_secs()
            ))
        }
    }
}

/// A standard input that is there all at once.
pub fn whole(stdin: Vec<u8>) -> impl FnOnce(ChildStdin) {
    move |mut to| {
        // A program that ends early leaves the pipe broken; what it did not read shows in what it says.
        let _ = to.write_all(&stdin);
    }
}

/// A standard output that is read as soon as it comes.
pub fn at_once(mut from: ChildStdout) -> io::Result<Vec<u8>> {
    let mut bytes = Vec::new();
    from.read_to_end(&mut bytes)?;
    Ok(bytes)
}
