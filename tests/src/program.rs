//! The repository's programs: where they lie, and running them.

use crate::stored::repository;
use std::ffi::OsStr;
use std::io::{BufReader, Read, Write};
use std::path::{Path, PathBuf};
use std::process::{Child, ChildStdout, Command, Output, Stdio};
use std::sync::atomic::{AtomicUsize, Ordering};
use std::{fs, io};

/// Where a program of the repository lies: in the directory that
/// CAVINDORUM_BIN names, or where `rt ci` and `rt run` link it.
pub fn program(name: &str) -> PathBuf {
    let linked = || repository().join("crates").join(name).join("out");
    let directory = std::env::var_os("CAVINDORUM_BIN").map_or_else(linked, PathBuf::from);
    // Programs are run in other directories too.
    std::path::absolute(directory.join(name)).expect("the path is not empty")
}

// Starts a program of the repository with its input and output as pipes.
fn start(name: &str) -> Child {
    let mut command = Command::new(program(name));
    command.stdin(Stdio::piped()).stdout(Stdio::piped());
    started(name, command.spawn())
}

/// What a program writes while it is fed.
pub type Pipe = BufReader<ChildStdout>;

/// Feeds a program of the repository with records, and reads of its output
/// what it makes of each. A missing program, or one that writes too little or
/// too much, is a failure.
pub fn feed<T: Sync, R>(
    name: &str,
    records: &[T],
    framed: impl Fn(&T) -> Vec<u8> + Send,
    read: impl Fn(&T, &mut Pipe) -> R,
) -> Vec<R> {
    let mut child = start(name);
    let mut input = child.stdin.take().expect("the input is a pipe");
    let mut output = BufReader::new(child.stdout.take().expect("the output is a pipe"));
    // A failure drops the output, which ends the program and so the writing.
    let made = std::thread::scope(move |scope| {
        scope.spawn(move || {
            for record in records {
                // A program that ends too early is found out below.
                let _ = input.write_all(&framed(record));
            }
        });
        let read = |record| read(record, &mut output);
        let made = records.iter().map(read).collect();
        assert_eq!(output.read(&mut [0]).ok(), Some(0), "more than the answers");
        made
    });
    let status = child.wait().expect("it ends");
    assert!(status.success(), "{name}: {status}");
    made
}

/// What the program `register` prints in a directory.
pub fn print_register(directory: &Path) -> Vec<u8> {
    printed_by("register", directory)
}

/// What a program of the repository prints in a directory. A missing
/// program, or one that does not end well, is a failure.
pub fn printed_by(name: &str, directory: &Path) -> Vec<u8> {
    printed_given(name, &[], directory)
}

/// The same with these arguments.
pub fn printed_given(name: &str, arguments: &[&str], directory: &Path) -> Vec<u8> {
    let mut command = Command::new(program(name));
    let output = printed_in(directory, command.args(arguments));
    started(name, output)
}

/// What a command prints in a directory, without input. One that does not
/// end well, or that complains, is a failure.
pub fn printed_in(directory: &Path, command: &mut Command) -> io::Result<Vec<u8>> {
    let output = command
        .current_dir(directory)
        .stdin(Stdio::null())
        .output()?;
    let (status, errors) = (output.status, String::from_utf8_lossy(&output.stderr));
    let well = status.success() && errors.is_empty();
    assert!(well, "{command:?}: {status} {errors}");
    Ok(output.stdout)
}

/// Runs a program of the repository in a directory, on this input and
/// output.
pub fn run_on(name: &str, directory: &Path, input: Stdio, output: Stdio) -> Output {
    run_given(name, &[""; 0], directory, input, output)
}

/// The same with these arguments.
pub fn run_given(
    name: &str,
    arguments: &[impl AsRef<OsStr>],
    directory: &Path,
    input: Stdio,
    output: Stdio,
) -> Output {
    let mut command = Command::new(program(name));
    command.args(arguments).current_dir(directory);
    command.stdin(input).stdout(output).stderr(Stdio::piped());
    let ended = started(name, command.spawn()).wait_with_output();
    ended.expect("it can be waited for")
}

fn started<T>(name: &str, result: io::Result<T>) -> T {
    result.unwrap_or_else(|error| {
        let path = program(name);
        panic!(
            "{}: {error}; `rt run` in crates/{name} makes it",
            path.display()
        )
    })
}

/// What is made of each of these, by two threads.
pub fn on_two_threads<T: Sync, R: Send>(all: &[T], make: impl Fn(&T) -> R + Sync) -> Vec<R> {
    let (first, second) = all.split_at(all.len() / 2);
    std::thread::scope(|scope| {
        let other = scope.spawn(|| second.iter().map(&make).collect::<Vec<_>>());
        let mut made: Vec<_> = first.iter().map(&make).collect();
        match other.join() {
            Ok(others) => made.extend(others),
            Err(failure) => std::panic::resume_unwind(failure),
        }
        made
    })
}

/// A directory for one test, removed with all it holds when dropped.
pub struct TestDirectory {
    pub path: PathBuf,
}

impl TestDirectory {
    /// A directory with net.bin and picks.bin; none is a missing file.
    pub fn with(image: Option<&[u8]>, picks: Option<&[u8]>) -> TestDirectory {
        let files = [("net.bin", image), ("picks.bin", picks)];
        let there = files.map(|(name, content)| content.map(|content| (name, content)));
        TestDirectory::holding(there.into_iter().flatten())
    }

    /// A directory with these files, and the folders that their names lead
    /// through.
    pub fn holding<'a>(files: impl IntoIterator<Item = (&'a str, &'a [u8])>) -> TestDirectory {
        static MADE: AtomicUsize = AtomicUsize::new(0);
        let number = MADE.fetch_add(1, Ordering::Relaxed);
        let name = format!("cavindorum-{}-{number}", std::process::id());
        let path = std::env::temp_dir().join(name);
        fs::create_dir_all(&path).expect("the directory can be made");
        for (name, content) in files {
            let file = path.join(name);
            let folder = file.parent().expect("it is in the directory");
            fs::create_dir_all(folder).expect("the folder can be made");
            fs::write(file, content).expect("the file can be written");
        }
        TestDirectory { path }
    }
}

impl Drop for TestDirectory {
    fn drop(&mut self) {
        // What cannot be removed is left to the system.
        let _ = fs::remove_dir_all(&self.path);
    }
}

#[cfg(test)]
mod tests {
    use super::*;

    #[test]
    fn two_threads_keep_the_order() {
        for count in 0..6 {
            let all: Vec<usize> = (0..count).collect();
            let made = on_two_threads(&all, |number| number + 1);
            assert!(made.into_iter().eq(1..=count));
        }
    }
}
