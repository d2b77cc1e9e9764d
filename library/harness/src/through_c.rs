//! The calls through C: the program `calls` makes each one that it is asked
//! for. Its own head says how a question and an answer are written.

use std::io::{self, BufReader, BufWriter, Read, Write};
use std::process::{Child, ChildStdin, ChildStdout, Command, Stdio};

use crate::call::{Call, Lent, Outcome};
use crate::rows::CALLS;

/// The program's number for doing harm on purpose, which is no call.
const SPOIL: u64 = CALLS as u64;

/// The program, running.
pub struct ThroughC {
    child: Child,
    questions: BufWriter<ChildStdin>,
    answers: BufReader<ChildStdout>,
}

impl ThroughC {
    /// Starts the program, and sees that it notices harm.
    pub fn start(path: &str) -> Result<ThroughC, String> {
        let mut child = Command::new(path)
            .stdin(Stdio::piped())
            .stdout(Stdio::piped())
            .spawn()
            .map_err(|error| format!("{path}: {error}"))?;
        let questions = BufWriter::new(child.stdin.take().expect("it is piped"));
        let answers = BufReader::new(child.stdout.take().expect("it is piped"));
        let mut program = ThroughC {
            child,
            questions,
            answers,
        };
        program.notices_harm()?;
        Ok(program)
    }

    /// The call through C.
    pub fn call(&mut self, call: &Call) -> Outcome {
        let parts = call.row().lent;
        match self.ask(call.name as u64, &call.numbers, &call.lent) {
            Ok((harm, numbers, lent)) => Outcome {
                numbers,
                lent,
                harm: words(harm, |buffer| parts[buffer].what),
            },
            Err(error) => Outcome {
                numbers: vec![],
                lent: vec![],
                harm: Some(format!(
                    "the C program is gone, as where a call reaches outside its buffers: {error}"
                )),
            },
        }
    }

    /// One question and its answer: the harm, the fields, the buffers.
    fn ask(
        &mut self,
        call: u64,
        numbers: &[u64],
        lent: &[Lent],
    ) -> io::Result<(u64, Vec<u64>, Vec<Lent>)> {
        let head = [call, numbers.len() as u64, lent.len() as u64];
        for number in head.iter().chain(numbers) {
            self.questions.write_all(&number.to_ne_bytes())?;
        }
        for buffer in lent {
            let (element, bytes) = match buffer {
                Lent::Bytes(bytes) => (1u64, bytes.clone()),
                Lent::Words(words) => (2, words.iter().flat_map(|w| w.to_ne_bytes()).collect()),
            };
            self.questions.write_all(&element.to_ne_bytes())?;
            let count = buffer.count() as u64;
            self.questions.write_all(&count.to_ne_bytes())?;
            self.questions.write_all(&bytes)?;
        }
        self.questions.flush()?;

        let harm = self.number()?;
        let fields = self.number()?;
        let numbers: Result<Vec<u64>, _> = (0..fields).map(|_| self.number()).collect();
        let mut after = Vec::new();
        for buffer in lent {
            after.push(self.buffer(buffer)?);
        }
        Ok((harm, numbers?, after))
    }

    fn number(&mut self) -> io::Result<u64> {
        let mut bytes = [0; 8];
        self.answers.read_exact(&mut bytes)?;
        Ok(u64::from_ne_bytes(bytes))
    }

    /// A buffer of the kind and length of the one that was lent.
    fn buffer(&mut self, lent: &Lent) -> io::Result<Lent> {
        match lent {
            Lent::Bytes(before) => {
                let mut bytes = vec![0; before.len()];
                self.answers.read_exact(&mut bytes)?;
                Ok(Lent::Bytes(bytes))
            }
            Lent::Words(before) => {
                let mut bytes = vec![0; 2 * before.len()];
                self.answers.read_exact(&mut bytes)?;
                let pairs = bytes
                    .chunks(2)
                    .map(|two| u16::from_ne_bytes([two[0], two[1]]));
                Ok(Lent::Words(pairs.collect()))
            }
        }
    }

    /// Has the program spoil each byte around two buffers, and each byte of
    /// the one that is read only; it must say so, and of nothing else.
    fn notices_harm(&mut self) -> Result<(), String> {
        let lent = [Lent::Bytes(vec![7; 5]), Lent::Words(vec![7; 3])];
        for (buffer, bytes) in [(0, 5), (1, 6)] {
            for place in -64..bytes + 64 {
                let inside = (0..bytes).contains(&place);
                let harm = match (inside, buffer) {
                    (true, 0) => 0,
                    (true, _) => 11 + buffer,
                    (false, _) => 1 + buffer,
                };
                let numbers = [buffer, place as u64];
                let answer = self.ask(SPOIL, &numbers, &lent);
                let said = answer.map_err(|error| format!("the C program: {error}"))?;
                if said.0 != harm {
                    return Err(format!(
                        "the C program says {} of harm {harm} at byte {place} of buffer {buffer}",
                        said.0
                    ));
                }
            }
        }
        Ok(())
    }
}

impl Drop for ThroughC {
    /// The program ends with its questions; it is not left behind.
    fn drop(&mut self) {
        let _ = self.child.kill();
        let _ = self.child.wait();
    }
}

/// The program's number for harm in words.
fn words(harm: u64, what: impl Fn(usize) -> &'static str) -> Option<String> {
    match harm {
        0 => None,
        1..=10 => Some(format!("a canary of {} changed", what(harm as usize - 1))),
        _ => Some(format!(
            "{} is read only and changed",
            what(harm as usize - 11)
        )),
    }
}
