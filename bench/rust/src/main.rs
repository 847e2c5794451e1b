//! Answers scripts with the Rust crate futures-intrusive, to be timed beside `schedule`.
//!
//! Its grammar is that of `schedule` without `hold`, `wakes` and the pool, for what the scripts of bench/script.sh ask: a semaphore's
//! permits are given back one by one, a channel stands over an array of two, and a state is asked for that is newer than none.

use futures_intrusive::channel::{
    LocalChannel, LocalOneshotBroadcastChannel, LocalOneshotChannel, LocalStateBroadcastChannel, StateId,
};
use futures_intrusive::sync::{LocalManualResetEvent, LocalMutex, LocalSemaphore};
use futures_intrusive::timer::{LocalTimer, LocalTimerService, MockClock};
use std::cell::RefCell;
use std::collections::hash_map::{Entry, HashMap};
use std::future::Future;
use std::io::{self, BufWriter, Read, Write};
use std::pin::Pin;
use std::process::ExitCode;
use std::task::{Context, Poll, RawWaker, RawWakerVTable, Waker};

const LONGEST_LABEL: usize = 16;

type Label = [u8; LONGEST_LABEL];

thread_local! {
    /// The wakers that were woken since the last answer.
    static WOKEN: RefCell<Vec<u64>> = const { RefCell::new(Vec::new()) };
}

/// A waker is its number, in place of a pointer.
static WAKER_VTABLE: RawWakerVTable = RawWakerVTable::new(
    |number| RawWaker::new(number, &WAKER_VTABLE),
    note_wake,
    note_wake,
    |_| (),
);

fn note_wake(number: *const ()) {
    WOKEN.with_borrow_mut(|woken| woken.push(number as u64));
}

fn waker(number: u64) -> Waker {
    // SAFETY: no function of the table follows the pointer.
    unsafe { Waker::from_raw(RawWaker::new(number as *const (), &WAKER_VTABLE)) }
}

fn parse_label(word: &[u8]) -> Option<Label> {
    if word.len() > LONGEST_LABEL || !word.first()?.is_ascii_lowercase() {
        return None;
    }
    let mut label = [0; LONGEST_LABEL];
    for (place, byte) in label.iter_mut().zip(word) {
        if !byte.is_ascii_lowercase() && !byte.is_ascii_digit() {
            return None;
        }
        *place = *byte;
    }
    Some(label)
}

fn parse_number(word: &[u8]) -> Option<u64> {
    if word.is_empty() || (word[0] == b'0' && word.len() > 1) {
        return None;
    }
    word.iter().try_fold(0u64, |number, byte| {
        let digit = byte.is_ascii_digit().then(|| u64::from(byte - b'0'))?;
        number.checked_mul(10)?.checked_add(digit)
    })
}

/// The futures by their labels.
type Futures<F> = HashMap<Label, Pin<Box<F>>>;

/// The words of a line that are not read yet.
struct Words<'a>(&'a [u8]);

impl<'a> Words<'a> {
    fn word(&mut self) -> Option<&'a [u8]> {
        if self.0.is_empty() {
            return None;
        }
        let end = self.0.iter().position(|byte| *byte == b' ');
        let (word, rest) = match end {
            Some(end) => (&self.0[..end], &self.0[end + 1..]),
            None => (self.0, &[][..]),
        };
        self.0 = rest;
        Some(word)
    }

    fn label(&mut self) -> Option<Label> {
        parse_label(self.word()?)
    }

    fn number(&mut self) -> Option<u64> {
        parse_number(self.word()?)
    }
}

fn make<F>(words: &mut Words, futures: &mut Futures<F>, future: impl FnOnce(&mut Words) -> Option<F>) -> Option<()> {
    let Entry::Vacant(place) = futures.entry(words.label()?) else {
        return None;
    };
    place.insert(Box::pin(future(words)?));
    Some(())
}

fn poll<F: Future>(future: Pin<&mut F>, number: u64) -> Poll<F::Output> {
    let waker = waker(number);
    future.poll(&mut Context::from_waker(&waker))
}

/// Writes what a poll for a value was answered.
fn write_received(received: Poll<Option<u64>>, output: &mut impl Write) -> io::Result<()> {
    match received {
        Poll::Ready(Some(value)) => write!(output, "some {value}"),
        Poll::Ready(None) => output.write_all(b"none"),
        Poll::Pending => output.write_all(b"pending"),
    }
}

fn write_wakes(output: &mut impl Write) -> io::Result<()> {
    WOKEN.with_borrow_mut(|woken| {
        if !woken.is_empty() {
            output.write_all(b" wakes")?;
        }
        for number in woken.drain(..) {
            write!(output, " {number}")?;
        }
        output.write_all(b"\n")
    })
}

/// Answers each line in this way, and the number of the first bad one.
fn answer_lines<'a, W: Write>(
    lines: impl Iterator<Item = &'a [u8]>,
    output: &mut W,
    mut answer: impl FnMut(&'a [u8], &mut Words<'a>, &mut W) -> Option<io::Result<()>>,
) -> io::Result<Option<usize>> {
    for (index, line) in lines.enumerate() {
        let mut words = Words(line);
        let verb = words.word();
        match verb.and_then(|verb| answer(verb, &mut words, output)) {
            Some(written) if words.0.is_empty() => written?,
            _ => return Ok(Some(index + 2)),
        }
        write_wakes(output)?;
    }
    Ok(None)
}

type Ended = io::Result<Option<usize>>;

fn run_event<'a>(is_set: bool, lines: impl Iterator<Item = &'a [u8]>, output: &mut impl Write) -> Ended {
    let event = LocalManualResetEvent::new(is_set);
    let mut futures = Futures::new();
    answer_lines(lines, output, |verb, words, output| {
        let text: &[u8] = match verb {
            b"wait" => {
                make(words, &mut futures, |_| Some(event.wait()))?;
                b"made"
            }
            b"poll" => {
                let future = futures.get_mut(&words.label()?)?;
                match poll(future.as_mut(), words.number()?) {
                    Poll::Ready(()) => b"ready",
                    Poll::Pending => b"pending",
                }
            }
            b"cancel" => {
                drop(futures.remove(&words.label()?)?);
                b"ok"
            }
            b"set" => {
                event.set();
                b"ok"
            }
            b"reset" => {
                event.reset();
                b"ok"
            }
            b"is-set" if event.is_set() => b"true",
            b"is-set" => b"false",
            _ => return None,
        };
        Some(output.write_all(text))
    })
}

fn run_timer<'a>(lines: impl Iterator<Item = &'a [u8]>, output: &mut impl Write) -> Ended {
    static CLOCK: MockClock = MockClock::new();
    let service = LocalTimerService::new(&CLOCK);
    let mut futures = Futures::new();
    answer_lines(lines, output, |verb, words, output| {
        let text: &[u8] = match verb {
            b"deadline" => {
                make(words, &mut futures, |words| Some(service.deadline(words.number()?)))?;
                b"made"
            }
            b"poll" => {
                let future = futures.get_mut(&words.label()?)?;
                CLOCK.set_time(words.number()?);
                match poll(future.as_mut(), words.number()?) {
                    Poll::Ready(()) => b"ready",
                    Poll::Pending => b"pending",
                }
            }
            b"cancel" => {
                drop(futures.remove(&words.label()?)?);
                b"ok"
            }
            b"check" => {
                CLOCK.set_time(words.number()?);
                service.check_expirations();
                b"ok"
            }
            b"next" => match service.next_expiration() {
                Some(expiry) => return Some(write!(output, "some {expiry}")),
                None => b"none",
            },
            _ => return None,
        };
        Some(output.write_all(text))
    })
}

fn run_semaphore<'a>(is_fair: bool, lines: impl Iterator<Item = &'a [u8]>, output: &mut impl Write) -> Ended {
    let semaphore = LocalSemaphore::new(is_fair, 0);
    let mut futures = Futures::new();
    let mut releasers = Vec::new();
    answer_lines(lines, output, |verb, words, output| {
        let text: &[u8] = match verb {
            b"acquire" => {
                make(words, &mut futures, |words| Some(semaphore.acquire(words.number()? as usize)))?;
                b"made"
            }
            b"poll" => {
                let future = futures.get_mut(&words.label()?)?;
                match poll(future.as_mut(), words.number()?) {
                    Poll::Ready(releaser) => {
                        releasers.push(releaser);
                        b"ready"
                    }
                    Poll::Pending => b"pending",
                }
            }
            b"cancel" => {
                drop(futures.remove(&words.label()?)?);
                b"ok"
            }
            b"release" => {
                semaphore.release(words.number()? as usize);
                b"ok"
            }
            b"give-back" if words.number()? == 1 => {
                drop(releasers.pop()?);
                b"ok"
            }
            b"permits" => return Some(write!(output, "{}", semaphore.permits())),
            _ => return None,
        };
        Some(output.write_all(text))
    })
}

fn run_mutex<'a>(value: u64, lines: impl Iterator<Item = &'a [u8]>, output: &mut impl Write) -> Ended {
    let mutex = LocalMutex::new(value, true);
    let mut futures = Futures::new();
    let mut held = None;
    answer_lines(lines, output, |verb, words, output| {
        let text: &[u8] = match verb {
            b"lock" => {
                make(words, &mut futures, |_| Some(mutex.lock()))?;
                b"made"
            }
            b"poll" => {
                let future = futures.get_mut(&words.label()?)?;
                match poll(future.as_mut(), words.number()?) {
                    Poll::Ready(guard) => return Some(write!(output, "some {}", **held.insert(guard))),
                    Poll::Pending => b"pending",
                }
            }
            b"cancel" => {
                drop(futures.remove(&words.label()?)?);
                b"ok"
            }
            b"try-lock" => match mutex.try_lock() {
                Some(guard) => return Some(write!(output, "some {}", **held.insert(guard))),
                None => b"none",
            },
            b"unlock" => {
                let value = words.number()?;
                match held.take() {
                    Some(mut guard) => {
                        *guard = value;
                        b"ok"
                    }
                    None => return Some(write!(output, "not-held {value}")),
                }
            }
            b"is-locked" if mutex.is_locked() => b"true",
            b"is-locked" => b"false",
            _ => return None,
        };
        Some(output.write_all(text))
    })
}

/// Answers the lines of a channel of one value.
macro_rules! run_one_value {
    ($channel:expr, $lines:expr, $output:expr) => {{
        let channel = $channel;
        let mut futures = Futures::new();
        answer_lines($lines, $output, |verb, words, output| {
            let text: &[u8] = match verb {
                b"receive" => {
                    make(words, &mut futures, |_| Some(channel.receive()))?;
                    b"made"
                }
                b"poll" => {
                    let future = futures.get_mut(&words.label()?)?;
                    return Some(write_received(poll(future.as_mut(), words.number()?), output));
                }
                b"cancel" => {
                    drop(futures.remove(&words.label()?)?);
                    b"ok"
                }
                b"send" => match channel.send(words.number()?) {
                    Ok(()) => b"ok",
                    Err(closed) => return Some(write!(output, "closed {}", closed.0)),
                },
                b"close" if channel.close().is_newly_closed() => b"newly-closed",
                b"close" => b"already-closed",
                _ => return None,
            };
            Some(output.write_all(text))
        })
    }};
}

fn run_state<'a>(lines: impl Iterator<Item = &'a [u8]>, output: &mut impl Write) -> Ended {
    let channel = LocalStateBroadcastChannel::<u64>::new();
    let mut futures = Futures::new();
    let mut sent = 0u64;
    answer_lines(lines, output, |verb, words, output| {
        let text: &[u8] = match verb {
            b"receive" => {
                make(words, &mut futures, |words| (words.number()? == 0).then(|| channel.receive(StateId::new())))?;
                b"made"
            }
            b"poll" => {
                let future = futures.get_mut(&words.label()?)?;
                match poll(future.as_mut(), words.number()?) {
                    Poll::Ready(Some((_, value))) => return Some(write!(output, "some {sent} {value}")),
                    Poll::Ready(None) => b"none",
                    Poll::Pending => b"pending",
                }
            }
            b"cancel" => {
                drop(futures.remove(&words.label()?)?);
                b"ok"
            }
            b"send" => match channel.send(words.number()?) {
                Ok(()) => {
                    sent += 1;
                    b"ok"
                }
                Err(closed) => return Some(write!(output, "closed {}", closed.0)),
            },
            b"close" if channel.close().is_newly_closed() => b"newly-closed",
            b"close" => b"already-closed",
            _ => return None,
        };
        Some(output.write_all(text))
    })
}

fn run_channel<'a>(lines: impl Iterator<Item = &'a [u8]>, output: &mut impl Write) -> Ended {
    let channel = LocalChannel::<u64, [u64; 2]>::new();
    let mut sends = Futures::new();
    let mut receives = Futures::new();
    answer_lines(lines, output, |verb, words, output| {
        let text: &[u8] = match verb {
            b"send" => {
                make(words, &mut sends, |words| Some(channel.send(words.number()?)))?;
                b"made"
            }
            b"receive" => {
                make(words, &mut receives, |_| Some(channel.receive()))?;
                b"made"
            }
            b"poll" => {
                let label = words.label()?;
                let number = words.number()?;
                if let Some(send) = sends.get_mut(&label) {
                    match poll(send.as_mut(), number) {
                        Poll::Ready(Ok(())) => b"ok",
                        Poll::Ready(Err(closed)) => return Some(write!(output, "closed {}", closed.0)),
                        Poll::Pending => b"pending",
                    }
                } else {
                    return Some(write_received(poll(receives.get_mut(&label)?.as_mut(), number), output));
                }
            }
            b"cancel" => {
                let label = words.label()?;
                match sends.remove(&label) {
                    Some(mut send) => match unsafe { send.as_mut().get_unchecked_mut() }.cancel() {
                        Some(value) => return Some(write!(output, "some {value}")),
                        None => b"none",
                    },
                    None => {
                        drop(receives.remove(&label)?);
                        b"ok"
                    }
                }
            }
            b"try-send" => match channel.try_send(words.number()?) {
                Ok(()) => b"ok",
                Err(refused) if refused.is_full() => return Some(write!(output, "full {}", refused.into_inner())),
                Err(refused) => return Some(write!(output, "closed {}", refused.into_inner())),
            },
            b"try-receive" => match channel.try_receive() {
                Ok(value) => return Some(write!(output, "some {value}")),
                Err(refused) if refused.is_empty() => b"empty",
                Err(_) => b"closed",
            },
            b"close" if channel.close().is_newly_closed() => b"newly-closed",
            b"close" => b"already-closed",
            _ => return None,
        };
        Some(output.write_all(text))
    })
}

fn main() -> io::Result<ExitCode> {
    let mut script = Vec::new();
    io::stdin().lock().read_to_end(&mut script)?;
    let mut output = BufWriter::with_capacity(65536, io::stdout().lock());
    let script = script.strip_suffix(b"\n").unwrap_or(&script);
    let mut lines = script.split(|byte| *byte == b'\n');
    let bad = match lines.next() {
        Some(b"event set") => run_event(true, lines, &mut output),
        Some(b"event reset") => run_event(false, lines, &mut output),
        Some(b"timer") => run_timer(lines, &mut output),
        Some(b"mutex fair 0") => run_mutex(0, lines, &mut output),
        Some(b"semaphore fair 0") => run_semaphore(true, lines, &mut output),
        Some(b"semaphore unfair 0") => run_semaphore(false, lines, &mut output),
        Some(b"oneshot") => run_one_value!(LocalOneshotChannel::<u64>::new(), lines, &mut output),
        Some(b"oneshot-broadcast") => run_one_value!(LocalOneshotBroadcastChannel::<u64>::new(), lines, &mut output),
        Some(b"state-broadcast") => run_state(lines, &mut output),
        Some(b"channel array 2") => run_channel(lines, &mut output),
        _ => Ok(Some(1)),
    }?;
    output.flush()?;
    if let Some(number) = bad {
        eprintln!("schedule: line {number} is bad");
        return Ok(ExitCode::from(2));
    }
    Ok(ExitCode::SUCCESS)
}
