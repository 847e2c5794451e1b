//! Calls the primitives of futures-intrusive as bench_calls calls ours: `calls LOAD COUNT ROUNDS`.

use futures_intrusive::channel::{LocalChannel, LocalUnbufferedChannel};
use futures_intrusive::sync::{LocalManualResetEvent, LocalMutex, LocalSemaphore};
use futures_intrusive::timer::{LocalTimer, LocalTimerService, MockClock};
use std::cell::Cell;
use std::future::Future;
use std::pin::{Pin, pin};
use std::task::{Context, Poll, RawWaker, RawWakerVTable, Waker};

thread_local! {
    static SUM: Cell<u64> = const { Cell::new(0) };
}

static WAKER_VTABLE: RawWakerVTable = RawWakerVTable::new(
    |number| RawWaker::new(number, &WAKER_VTABLE),
    note_wake,
    note_wake,
    |_| (),
);

fn note_wake(number: *const ()) {
    SUM.with(|sum| sum.set(sum.get().wrapping_add(number as u64)));
}

fn waker(number: u64) -> Waker {
    // SAFETY: no function of the table follows the pointer.
    unsafe { Waker::from_raw(RawWaker::new(number as *const (), &WAKER_VTABLE)) }
}

fn poll<F: Future>(future: &mut Pin<Box<F>>, number: u64) -> bool {
    give(future.as_mut(), number).is_some()
}

fn give<F: Future>(future: Pin<&mut F>, number: u64) -> Option<F::Output> {
    let waker = waker(number);
    match future.poll(&mut Context::from_waker(&waker)) {
        Poll::Ready(output) => Some(output),
        Poll::Pending => None,
    }
}

fn event_round(event: &LocalManualResetEvent, count: u64) {
    let mut waits = Vec::with_capacity(count as usize);
    for i in 0..count {
        let mut wait = Box::pin(event.wait());
        poll(&mut wait, i);
        waits.push(wait);
    }
    event.set();
    for wait in &mut waits {
        poll(wait, 1);
    }
    event.reset();
    while let Some(wait) = waits.pop() {
        drop(wait);
    }
}

/// A number below `count` that follows this one, so that each is met once in `count` steps where `count` is a power of ten.
fn drawn_after(place: u64, count: u64) -> u64 {
    place.wrapping_mul(40_021).wrapping_add(7_919) % count
}

fn cancel_round(event: &LocalManualResetEvent, count: u64) {
    let mut waits: Vec<Option<_>> = Vec::with_capacity(count as usize);
    for i in 0..count {
        let mut wait = Box::pin(event.wait());
        poll(&mut wait, i);
        waits.push(Some(wait));
    }
    let mut place = 0;
    for _ in 0..count {
        place = drawn_after(place, count);
        waits[place as usize] = None;
    }
}

fn timer_round(service: &LocalTimerService, clock: &MockClock, count: u64) {
    clock.set_time(0);
    let mut delays: Vec<Option<_>> = Vec::with_capacity(count as usize);
    let mut place = 0;
    for _ in 0..count {
        place = drawn_after(place, count);
        let mut delay = Box::pin(service.deadline(place + 1));
        poll(&mut delay, place);
        delays.push(Some(delay));
    }
    for delay in delays.iter_mut().step_by(10) {
        *delay = None;
    }
    let mut now = 0;
    for _ in 0..101 {
        now += count / 100;
        clock.set_time(now);
        service.check_expirations();
    }
    for delay in delays.iter_mut().flatten() {
        poll(delay, 1);
    }
    while let Some(delay) = delays.pop() {
        drop(delay);
    }
}

fn lock_pairs(mutex: &LocalMutex<u64>, count: u64) {
    for i in 0..count {
        if let Some(mut guard) = give(pin!(mutex.lock()), i) {
            *guard += 1;
        }
    }
}

fn locks_served(mutex: &LocalMutex<u64>, count: u64) {
    let mut held = mutex.try_lock();
    let mut locks = Vec::with_capacity(count as usize);
    for i in 0..count {
        let mut lock = Box::pin(mutex.lock());
        poll(&mut lock, i);
        locks.push(lock);
    }
    for lock in &mut locks {
        drop(held.take());
        held = give(lock.as_mut(), 1);
    }
}

fn acquire_pairs(semaphore: &LocalSemaphore, count: u64) {
    for i in 0..count {
        drop(give(pin!(semaphore.acquire(1)), i));
    }
}

fn served(semaphore: &LocalSemaphore, count: u64, released: usize) {
    let mut acquires = Vec::with_capacity(count as usize);
    for i in 0..count {
        let mut acquire = Box::pin(semaphore.acquire(1));
        poll(&mut acquire, i);
        acquires.push(acquire);
    }
    semaphore.release(released);
    for acquire in acquires {
        let mut acquire = acquire;
        if let Some(mut releaser) = give(acquire.as_mut(), 1) {
            if released > 1 {
                releaser.disarm();
            }
        }
    }
    if released == 1 {
        if let Some(mut releaser) = semaphore.try_acquire(1) {
            releaser.disarm();
        }
    }
}

const ROOM: usize = 16;

fn channel_pairs(channel: &LocalChannel<u64, [u64; ROOM]>, count: u64) {
    for i in 0..count {
        let _ = channel.try_send(i);
        give(pin!(channel.receive()), i);
    }
}

fn rendezvous(channel: &LocalUnbufferedChannel<u64>, count: u64) {
    for i in 0..count {
        let mut send = pin!(channel.send(i));
        give(send.as_mut(), i);
        give(pin!(channel.receive()), i);
        give(send.as_mut(), i);
    }
}

fn full_sends(channel: &LocalChannel<u64, [u64; ROOM]>, count: u64) {
    for i in 0..ROOM as u64 {
        let _ = channel.try_send(i);
    }
    let mut sends = Vec::with_capacity(count as usize);
    for i in 0..count {
        let mut send = Box::pin(channel.send(i));
        poll(&mut send, i);
        sends.push(send);
    }
    for send in sends {
        let mut send = send;
        let _ = channel.try_receive();
        poll(&mut send, 1);
    }
    for _ in 0..ROOM {
        let _ = channel.try_receive();
    }
}

fn receive_cancels(channel: &LocalUnbufferedChannel<u64>, count: u64) {
    let mut receives: Vec<Option<_>> = Vec::with_capacity(count as usize);
    for i in 0..count {
        let mut receive = Box::pin(channel.receive());
        poll(&mut receive, i);
        receives.push(Some(receive));
    }
    let mut place = 0;
    for _ in 0..count {
        place = drawn_after(place, count);
        receives[place as usize] = None;
    }
}

/// Runs so many rounds of a load on one object, or on a fresh one each.
fn run(load: &str, count: u64, rounds: u64) {
    static CLOCK: MockClock = MockClock::new();
    let event = LocalManualResetEvent::new(false);
    let service = LocalTimerService::new(&CLOCK);
    let mutex = LocalMutex::new(0, true);
    let one = LocalSemaphore::new(true, 1);
    let semaphore = LocalSemaphore::new(true, 0);
    let channel = LocalChannel::new();
    let unbuffered = LocalUnbufferedChannel::new();
    for _ in 0..rounds {
        match load {
            "event-kept" => event_round(&event, count),
            "event-fresh" => event_round(&LocalManualResetEvent::new(false), count),
            "cancels" => cancel_round(&event, count),
            "timer" => timer_round(&service, &CLOCK, count),
            "lock-pairs" => lock_pairs(&mutex, count),
            "locks-served" => locks_served(&mutex, count),
            "acquire-pairs" => acquire_pairs(&one, count),
            "acquires-served" => served(&semaphore, count, 1),
            "acquires-at-once" => served(&semaphore, count, count as usize),
            "channel-pairs" => channel_pairs(&channel, count),
            "full-sends" => full_sends(&channel, count),
            "rendezvous" => rendezvous(&unbuffered, count),
            "receive-cancels" => receive_cancels(&unbuffered, count),
            _ => panic!("no such load: {load}"),
        }
    }
}

fn main() {
    let words: Vec<String> = std::env::args().collect();
    let [_, load, count, rounds] = &words[..] else {
        panic!("usage: calls LOAD COUNT ROUNDS");
    };
    run(load, count.parse().expect("a number"), rounds.parse().expect("a number"));
    println!("{}", SUM.with(|sum| sum.get()));
}
