//! Blocks by Rust's std as bench_sync blocks by ours: `blocking LOAD COUNT THREADS`. Its mutex and channel are std's, its semaphore and its
//! event a number and a flag under a `Mutex` with a `Condvar`.

use std::sync::atomic::{AtomicU64, Ordering};
use std::sync::mpsc::{sync_channel, Receiver, SyncSender};
use std::sync::{Condvar, Mutex};

/// How many permits are free, and how many threads wait for one: std's `Condvar` makes a call of the system even where nobody waits.
#[derive(Default)]
struct Permits {
    free: u64,
    waiting: u64,
}

#[derive(Default)]
struct Semaphore {
    permits: Mutex<Permits>,
    is_free: Condvar,
}

impl Semaphore {
    fn acquire(&self) {
        let mut permits = self.permits.lock().unwrap();
        while permits.free == 0 {
            permits.waiting += 1;
            permits = self.is_free.wait(permits).unwrap();
            permits.waiting -= 1;
        }
        permits.free -= 1;
    }

    fn release(&self) {
        let mut permits = self.permits.lock().unwrap();
        permits.free += 1;
        if permits.waiting > 0 {
            self.is_free.notify_one();
        }
    }
}

#[derive(Default)]
struct Event {
    is_set: Mutex<bool>,
    changes: Condvar,
}

impl Event {
    fn set(&self) {
        *self.is_set.lock().unwrap() = true;
        self.changes.notify_all();
    }

    fn wait(&self) {
        let mut is_set = self.is_set.lock().unwrap();
        while !*is_set {
            is_set = self.changes.wait(is_set).unwrap();
        }
    }
}

fn lock_pairs(mutex: &Mutex<u64>, count: u64) -> u64 {
    let mut done = 0;
    for _ in 0..count {
        if let Ok(mut guard) = mutex.lock() {
            *guard = guard.wrapping_add(1);
            done += 1;
        }
    }
    done
}

fn acquire_pairs(semaphore: &Semaphore, count: u64) -> u64 {
    for _ in 0..count {
        semaphore.acquire();
        semaphore.release();
    }
    count
}

fn send_pairs(sender: &SyncSender<u64>, receiver: &Receiver<u64>, count: u64) -> u64 {
    let mut done = 0;
    for i in 0..count {
        let is_sent = sender.send(i).is_ok();
        if is_sent && receiver.recv().is_ok() {
            done += 1;
        }
    }
    done
}

fn waits(event: &Event, count: u64) -> u64 {
    for _ in 0..count {
        event.wait();
    }
    count
}

/// Does the work in so many threads at once, and adds up what was done.
fn in_threads(threads: u64, work: impl Fn() -> u64 + Sync) -> u64 {
    let sum = AtomicU64::new(0);
    std::thread::scope(|scope| {
        for _ in 0..threads {
            scope.spawn(|| sum.fetch_add(work(), Ordering::SeqCst));
        }
    });
    sum.into_inner()
}

/// Sends by half of so many threads what the other half receives, each receiver under a lock, since std's has one owner.
fn send_in_threads(sender: &SyncSender<u64>, receiver: Receiver<u64>, pairs: u64, share: u64) -> u64 {
    let done = AtomicU64::new(0);
    let receiver = Mutex::new(receiver);
    std::thread::scope(|scope| {
        for _ in 0..pairs {
            scope.spawn(|| (0..share).for_each(|i| sender.send(i).unwrap()));
            scope.spawn(|| {
                let received = (0..share).filter(|_| receiver.lock().unwrap().recv().is_ok()).count();
                done.fetch_add(received as u64, Ordering::SeqCst)
            });
        }
    });
    done.into_inner()
}

fn run(load: &str, count: u64, threads: u64) -> u64 {
    let mutex = Mutex::new(0);
    let semaphore = Semaphore::default();
    semaphore.permits.lock().unwrap().free = threads;
    let event = Event::default();
    event.set();
    let (sender, receiver) = sync_channel(2);
    let share = count / threads;
    match load {
        "lock-blocking" if threads < 2 => lock_pairs(&mutex, count),
        "lock-blocking" => in_threads(threads, || lock_pairs(&mutex, share)),
        "acquire-blocking" if threads < 2 => acquire_pairs(&semaphore, count),
        "acquire-blocking" => in_threads(threads, || acquire_pairs(&semaphore, share)),
        "send-blocking" | "end-blocking" if threads < 2 => send_pairs(&sender, &receiver, count),
        "send-blocking" => send_in_threads(&sender, receiver, threads / 2, count / (threads / 2)),
        "wait-blocking" => waits(&event, count),
        _ => panic!("no such load: {load}"),
    }
}

fn main() {
    let words: Vec<String> = std::env::args().collect();
    let [_, load, count, threads] = &words[..] else {
        panic!("usage: blocking LOAD COUNT THREADS");
    };
    println!("{}", run(load, count.parse().expect("a number"), threads.parse().expect("a number")));
}
