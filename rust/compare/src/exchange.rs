//! Asks the proved library through the exchange program, a child process that
//! is linked with the library and serves its exports over pipes, and lays each
//! answer beside the second program's.

use std::fmt::Debug;
use std::io::{self, BufReader, Read, Write};
use std::process::{Child, ChildStdin, ChildStdout, ExitStatus};
use std::sync::mpsc::{channel, Receiver, Sender};
use std::thread;
use std::time::Duration;

use second::numbers::Numbers;

use crate::child::start;

/// Requests that are written in one piece.
const REQUESTS_IN_PIECE: usize = 2_048;
const READ_BYTES: usize = 1 << 16;

/// How long a child that has stopped answering may take to end.
const ENDING_CHECKS: usize = 100;
const BETWEEN_CHECKS: Duration = Duration::from_millis(20);

/// One call of one export.
pub trait Request: Send {
    /// The byte that names the export to the exchange program.
    const EXPORT: u8;
    /// What the library is held against, as a difference tells it.
    const YARDSTICK: &'static str = "second";
    type Answer: PartialEq + Debug;

    /// The same byte; only where one row of requests goes to several exports has
    /// each request its own.
    fn export(&self) -> u8 {
        Self::EXPORT
    }

    /// Adds the arguments, each little-endian, in their order.
    fn arguments(&self, bytes: &mut Vec<u8>);
    /// Takes the library's answer, field by field.
    fn library(&self, fields: &mut Fields) -> io::Result<Self::Answer>;
    /// The second program's answer, or that of another yardstick.
    fn second(&self) -> Self::Answer;
    /// What is asked, in words; needed only where the answers differ.
    fn question(&self) -> String;
}

/// The exchange program's output: the fields of its answers, little-endian.
pub struct Fields {
    output: BufReader<ChildStdout>,
}

impl Fields {
    fn array<const BYTES: usize>(&mut self) -> io::Result<[u8; BYTES]> {
        let mut bytes = [0; BYTES];
        self.output.read_exact(&mut bytes)?;
        Ok(bytes)
    }

    pub fn u8(&mut self) -> io::Result<u8> {
        self.array().map(u8::from_le_bytes)
    }

    pub fn u16(&mut self) -> io::Result<u16> {
        self.array().map(u16::from_le_bytes)
    }

    pub fn u32(&mut self) -> io::Result<u32> {
        self.array().map(u32::from_le_bytes)
    }

    pub fn u64(&mut self) -> io::Result<u64> {
        self.array().map(u64::from_le_bytes)
    }

    /// A count of what is in memory, which C hands over as a size_t.
    pub fn count(&mut self) -> io::Result<usize> {
        usize::try_from(self.u64()?).map_err(io::Error::other)
    }

    pub fn bytes(&mut self, length: usize) -> io::Result<Vec<u8>> {
        let mut bytes = vec![0; length];
        self.output.read_exact(&mut bytes)?;
        Ok(bytes)
    }

    /// A struct whose numbers are all u32.
    pub fn numbers<N: Numbers>(&mut self) -> io::Result<N> {
        let bytes = self.bytes(N::COUNT * size_of::<u32>())?;
        let numbers = bytes.chunks_exact(size_of::<u32>());
        Ok(N::from_numbers(&mut numbers.map(|number| {
            u32::from_le_bytes(number.try_into().expect("the chunks are that large"))
        })))
    }

    /// A row of so many, each taken by itself.
    pub fn row<I: Item>(&mut self, length: usize) -> io::Result<Vec<I>> {
        (0..length).map(|_| I::take(self)).collect()
    }

    fn are_over(&mut self) -> io::Result<bool> {
        Ok(self.output.read(&mut [0])? == 0)
    }
}

/// What rows are made of.
pub trait Item: Copy + Debug + PartialEq + Send {
    fn append_to(self, bytes: &mut Vec<u8>);
    fn take(fields: &mut Fields) -> io::Result<Self>;
}

impl Item for u8 {
    fn append_to(self, bytes: &mut Vec<u8>) {
        bytes.push(self);
    }

    fn take(fields: &mut Fields) -> io::Result<Self> {
        fields.u8()
    }
}

impl Item for u32 {
    fn append_to(self, bytes: &mut Vec<u8>) {
        bytes.extend(self.to_le_bytes());
    }

    fn take(fields: &mut Fields) -> io::Result<Self> {
        fields.u32()
    }
}

/// Adds the numbers of a struct to a request, each little-endian.
pub fn append_numbers(bytes: &mut Vec<u8>, fields: &impl Numbers) {
    for number in fields.numbers() {
        number.append_to(bytes);
    }
}

/// Adds a row to a request: its count, and each of its items.
pub fn append_row<I: Item>(bytes: &mut Vec<u8>, row: &[I]) {
    let count = u32::try_from(row.len()).expect("no row is that long");
    count.append_to(bytes);
    for item in row {
        item.append_to(bytes);
    }
}

/// Why the answers were not compared to their end.
enum Break {
    /// The library and the yardstick differ: the question and both answers.
    Difference(String),
    /// The exchange program failed, in words.
    Fault(String),
}

/// Puts every request to an exchange program of its own and compares the
/// answers; says how many there were, or the first difference or fault.
pub fn compare<R: Request>(
    command: &[String],
    requests: impl Iterator<Item = R> + Send,
) -> Result<usize, String> {
    compare_and_show(command, requests, |_, _| {})
}

/// As `compare`, and shows each request with the answer on which both agree.
pub fn compare_and_show<R: Request>(
    command: &[String],
    requests: impl Iterator<Item = R> + Send,
    show: impl FnMut(&R, &R::Answer),
) -> Result<usize, String> {
    let name = command.join(" ");
    let mut child = start(command).map_err(|error| format!("{name}: cannot start: {error}"))?;
    let stdin = child.stdin.take().expect("the input is a pipe");
    let output = child.stdout.take().expect("the output is a pipe");
    // Asking and comparing go side by side: a pipe holds only so much. A piece
    // is handed on before it is written, and handing on never waits, so asking
    // waits for nobody but the child, and the child's answers are always read.
    let (sender, pieces) = channel();
    let (compared, ending) = thread::scope(|scope| {
        scope.spawn(move || ask(requests, stdin, sender));
        let compared = compare_answers(pieces, output, show);
        (compared, end(&mut child))
    });
    let ending = ending.map_err(|error| format!("{name}: {error}"))?;
    match compared {
        Err(Break::Difference(difference)) => Err(difference),
        Err(Break::Fault(fault)) => Err(format!("{name}: {fault}\n  it ended with {ending}")),
        Ok(count) if ending.success() => Ok(count),
        Ok(count) => Err(format!(
            "{name}: ended with {ending} after {count} right answers"
        )),
    }
}

/// Writes all requests, and closes the child's input after the last one, so
/// that a child with too short an answer ends and is not waited for. Writing
/// fails only when the child has ended; its missing answers tell that.
fn ask<R: Request>(
    mut requests: impl Iterator<Item = R>,
    mut stdin: ChildStdin,
    sender: Sender<Vec<R>>,
) {
    let mut bytes = Vec::new();
    loop {
        let piece: Vec<R> = requests.by_ref().take(REQUESTS_IN_PIECE).collect();
        bytes.clear();
        for request in &piece {
            bytes.push(request.export());
            request.arguments(&mut bytes);
        }
        if piece.is_empty() || sender.send(piece).is_err() || stdin.write_all(&bytes).is_err() {
            return;
        }
    }
}

/// Both the pieces and the output are given up at the first break, so that
/// neither the asking thread nor the child waits on.
fn compare_answers<R: Request>(
    pieces: Receiver<Vec<R>>,
    output: ChildStdout,
    mut show: impl FnMut(&R, &R::Answer),
) -> Result<usize, Break> {
    let output = BufReader::with_capacity(READ_BYTES, output);
    let mut fields = Fields { output };
    let mut count = 0;
    for piece in pieces {
        for request in piece {
            let answer = compare_answer(&request, &mut fields, count)?;
            show(&request, &answer);
            count += 1;
        }
    }
    match fields.are_over() {
        Ok(true) => Ok(count),
        Ok(false) => Err(Break::Fault(format!(
            "answered more than the {count} requests asked for"
        ))),
        Err(error) => Err(Break::Fault(error.to_string())),
    }
}

fn compare_answer<R: Request>(
    request: &R,
    fields: &mut Fields,
    answered: usize,
) -> Result<R::Answer, Break> {
    let library = request
        .library(fields)
        .map_err(|error| missing_answer(request, answered, &error))?;
    let second = request.second();
    if library == second {
        return Ok(library);
    }
    Err(Break::Difference(format!(
        "{}\n  library {library:?}\n  {:<7} {second:?}",
        request.question(),
        R::YARDSTICK
    )))
}

fn missing_answer<R: Request>(request: &R, answered: usize, error: &io::Error) -> Break {
    let reason = match error.kind() {
        io::ErrorKind::UnexpectedEof => "its output ended".to_string(),
        _ => error.to_string(),
    };
    Break::Fault(format!(
        "gave {answered} answers, then {reason} before the whole answer to: {}",
        request.question()
    ))
}

/// A child whose output is closed has ended or soon will; one that does not is
/// stopped, so that the asking thread cannot wait for it for ever.
fn end(child: &mut Child) -> io::Result<ExitStatus> {
    for _ in 0..ENDING_CHECKS {
        if let Some(status) = child.try_wait()? {
            return Ok(status);
        }
        thread::sleep(BETWEEN_CHECKS);
    }
    child.kill()?;
    child.wait()
}

#[cfg(test)]
mod tests {
    use super::*;

    /// A request that is its own answer, so that `cat` answers it right.
    struct Echo {
        number: u32,
    }

    impl Request for Echo {
        const EXPORT: u8 = b'E';
        type Answer = (u8, u32);

        fn arguments(&self, bytes: &mut Vec<u8>) {
            bytes.extend(self.number.to_le_bytes());
        }

        fn library(&self, fields: &mut Fields) -> io::Result<Self::Answer> {
            Ok((fields.u8()?, fields.u32()?))
        }

        fn second(&self) -> Self::Answer {
            (Self::EXPORT, self.number)
        }

        fn question(&self) -> String {
            format!("echo of {}", self.number)
        }
    }

    /// What comes of asking a shell command for so many echoes.
    fn compare_with(shell_command: &str, count: u32) -> Result<usize, String> {
        let command = ["sh", "-c", shell_command].map(str::to_string);
        compare(&command, (0..count).map(|number| Echo { number }))
    }

    #[track_caller]
    fn assert_fails(outcome: Result<usize, String>, said: &str) {
        let failure = outcome.expect_err("the child was at fault");
        assert!(failure.contains(said), "{failure}");
    }

    #[test]
    fn right_answers_agree() {
        assert_eq!(compare_with("cat", 0), Ok(0));
        assert_eq!(compare_with("cat", 1), Ok(1));
        assert_eq!(compare_with("cat", 300_000), Ok(300_000));
    }

    #[test]
    fn answers_are_shown_in_their_order() {
        let mut shown = Vec::new();
        let command = ["cat".to_string()];
        let requests = (0..5_000).map(|number| Echo { number });
        let compared = compare_and_show(&command, requests, |_, answer| shown.push(answer.1));
        assert_eq!(compared, Ok(5_000));
        assert!(shown.into_iter().eq(0..5_000));
    }

    /// Far more than the pipes hold is asked before the first answer comes;
    /// after it, far more is answered than the pipes hold.
    #[test]
    fn answers_may_come_late() {
        let late = "sleep 1; dd bs=5000000 iflag=fullblock 2>/dev/null";
        assert_eq!(compare_with(late, 100_000), Ok(100_000));
    }

    #[test]
    fn a_wrong_answer_is_a_difference() {
        let outcome = compare_with("tr E F", 100_000);
        assert_fails(outcome, "echo of 0\n  library (70, 0)\n  second  (69, 0)");
    }

    #[test]
    fn a_child_that_dies_is_told() {
        assert_fails(compare_with("exit 1", 100_000), "gave 0 answers");
        let outcome = compare_with("head -c 500; exit 3", 100_000);
        assert_fails(outcome, "gave 100 answers");
    }

    #[test]
    fn a_short_answer_is_told_even_at_the_end() {
        let outcome = compare_with("head -c 499", 100);
        assert_fails(
            outcome,
            "gave 99 answers, then its output ended before the whole answer to: echo of 99",
        );
    }

    #[test]
    fn a_child_that_closes_its_output_and_stays_is_stopped() {
        let outcome = compare_with("exec >&-; exec sleep 1000", 100_000);
        assert_fails(outcome, "gave 0 answers");
    }

    #[test]
    fn answers_that_nobody_asked_for_are_told() {
        let outcome = compare_with("cat; echo more", 100);
        assert_fails(outcome, "more than the 100 requests");
    }

    #[test]
    fn a_bad_ending_is_told() {
        let outcome = compare_with("cat; exit 7", 100);
        assert_fails(outcome, "exit status: 7 after 100 right answers");
    }

    #[test]
    fn a_program_that_is_not_there_is_told() {
        let command = ["./no-such-program".to_string()];
        let outcome = compare(&command, [Echo { number: 1 }].into_iter());
        assert_fails(outcome, "./no-such-program: cannot start");
    }
}
