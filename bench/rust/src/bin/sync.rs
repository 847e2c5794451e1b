//! Calls the thread-safe primitives of futures-intrusive as bench_sync calls ours: `sync LOAD COUNT THREADS`.

use futures_intrusive::buffer::ArrayBuf;
use futures_intrusive::channel::GenericChannel;
use futures_intrusive::channel::shared::{generic_channel, GenericReceiver, GenericSender};
use futures_intrusive::sync::{GenericMutex, GenericSemaphore};
use lock_api::StdLock;
use std::collections::VecDeque;
use std::future::Future;
use std::pin::pin;
use std::sync::atomic::{AtomicBool, AtomicU64, Ordering};
use std::sync::Arc;
use std::task::{Context, Poll, Wake, Waker};

type Mutex = GenericMutex<StdLock, u64>;
type Semaphore = GenericSemaphore<StdLock>;
type Channel = GenericChannel<StdLock, u64, ArrayBuf<u64, [u64; 2]>>;
type Sender = GenericSender<StdLock, u64, ArrayBuf<u64, [u64; 2]>>;
type Receiver = GenericReceiver<StdLock, u64, ArrayBuf<u64, [u64; 2]>>;

fn try_lock_pairs(mutex: &Mutex, count: u64) -> u64 {
    let mut done = 0;
    while done < count {
        if let Some(mut guard) = mutex.try_lock() {
            *guard = guard.wrapping_add(1);
            done += 1;
        }
    }
    done
}

fn lock_pairs(mutex: &Mutex, cx: &mut Context, count: u64) -> u64 {
    let mut done = 0;
    for _ in 0..count {
        let lock = pin!(mutex.lock());
        if let Poll::Ready(mut guard) = lock.poll(cx) {
            *guard = guard.wrapping_add(1);
            done += 1;
        }
    }
    done
}

fn try_acquire_pairs(semaphore: &Semaphore, count: u64) -> u64 {
    let mut done = 0;
    while done < count {
        if semaphore.try_acquire(1).is_some() {
            done += 1;
        }
    }
    done
}

fn acquire_pairs(semaphore: &Semaphore, cx: &mut Context, count: u64) -> u64 {
    let mut done = 0;
    for _ in 0..count {
        let acquire = pin!(semaphore.acquire(1));
        if acquire.poll(cx).is_ready() {
            done += 1;
        }
    }
    done
}

fn try_sends(channel: &Channel, count: u64) -> u64 {
    let mut done = 0;
    while done < count {
        if channel.try_send(done).is_ok() {
            done += 1;
        }
    }
    done
}

fn try_receives(channel: &Channel, count: u64) -> u64 {
    let mut done = 0;
    while done < count {
        if channel.try_receive().is_ok() {
            done += 1;
        }
    }
    done
}

fn try_send_pairs(channel: &Channel, count: u64) -> u64 {
    let mut done = 0;
    for i in 0..count {
        let is_sent = channel.try_send(i).is_ok();
        if is_sent && channel.try_receive().is_ok() {
            done += 1;
        }
    }
    done
}

fn send_pairs(channel: &Channel, cx: &mut Context, count: u64) -> u64 {
    let mut done = 0;
    for i in 0..count {
        let send = pin!(channel.send(i));
        let is_sent = send.poll(cx).is_ready();
        let receive = pin!(channel.receive());
        if is_sent && receive.poll(cx).is_ready() {
            done += 1;
        }
    }
    done
}

fn try_end_sends(sender: &Sender, count: u64) -> u64 {
    let mut done = 0;
    while done < count {
        if sender.try_send(done).is_ok() {
            done += 1;
        }
    }
    done
}

fn try_end_receives(receiver: &Receiver, count: u64) -> u64 {
    let mut done = 0;
    while done < count {
        if receiver.try_receive().is_ok() {
            done += 1;
        }
    }
    done
}

fn try_end_pairs(sender: &Sender, receiver: &Receiver, count: u64) -> u64 {
    let mut done = 0;
    for i in 0..count {
        let is_sent = sender.try_send(i).is_ok();
        if is_sent && receiver.try_receive().is_ok() {
            done += 1;
        }
    }
    done
}

fn end_pairs(sender: &Sender, receiver: &Receiver, cx: &mut Context, count: u64) -> u64 {
    let mut done = 0;
    for i in 0..count {
        let send = pin!(sender.send(i));
        let is_sent = send.poll(cx).is_ready();
        let receive = pin!(receiver.receive());
        if is_sent && receive.poll(cx).is_ready() {
            done += 1;
        }
    }
    done
}

const WAITERS: usize = 100;

/// The places of the tasks that were woken, oldest first.
static WOKEN: std::sync::Mutex<VecDeque<usize>> = std::sync::Mutex::new(VecDeque::new());

/// A task, whose waker queues it unless it is queued already.
struct Task {
    place: usize,
    is_queued: AtomicBool,
}

impl Wake for Task {
    fn wake(self: Arc<Self>) {
        self.wake_by_ref();
    }

    fn wake_by_ref(self: &Arc<Self>) {
        if !self.is_queued.swap(true, Ordering::SeqCst) {
            WOKEN.lock().unwrap().push_back(self.place);
        }
    }
}

/// Of a hundred futures of as many tasks that wait for a mutex the oldest is woken, served and made again, so many times.
fn lock_queue(mutex: &Mutex, count: u64) -> u64 {
    let mut held = mutex.try_lock();
    let tasks: Vec<_> = (0..WAITERS).map(|place| Arc::new(Task { place, is_queued: AtomicBool::new(false) })).collect();
    let wakers: Vec<_> = tasks.iter().map(|task| Waker::from(task.clone())).collect();
    let mut locks: Vec<_> = tasks.iter().map(|_| Box::pin(mutex.lock())).collect();
    for (lock, waker) in locks.iter_mut().zip(&wakers) {
        let _ = lock.as_mut().poll(&mut Context::from_waker(waker));
    }
    let mut done = 0;
    for _ in 0..count {
        drop(held.take());
        let Some(place) = WOKEN.lock().unwrap().pop_front() else {
            return done;
        };
        tasks[place].is_queued.store(false, Ordering::SeqCst);
        let cx = &mut Context::from_waker(&wakers[place]);
        let oldest = &mut locks[place];
        if let Poll::Ready(guard) = oldest.as_mut().poll(cx) {
            held = Some(guard);
            done += 1;
        }
        oldest.set(mutex.lock());
        let _ = oldest.as_mut().poll(cx);
    }
    done
}

/// Does the work in so many threads at once, and adds up what was done.
fn in_threads(threads: u64, work: impl Fn() -> u64 + Sync) -> u64 {
    let sum = AtomicU64::new(0);
    std::thread::scope(|scope| {
        for _ in 0..threads {
            scope.spawn(|| sum.fetch_add(work(), Ordering::SeqCst));
        }
    });
    sum.into_inner()
}

/// Sends by half of so many threads what the other half receives.
fn in_pairs(threads: u64, send: impl Fn() -> u64 + Sync, receive: impl Fn() -> u64 + Sync) -> u64 {
    let turn = AtomicU64::new(0);
    in_threads(threads, || if turn.fetch_add(1, Ordering::SeqCst) % 2 == 0 { send() } else { receive() }) / 2
}

fn run(load: &str, count: u64, threads: u64) -> u64 {
    let mutex = Mutex::new(0, true);
    let semaphore = Semaphore::new(true, threads as usize);
    let channel = Channel::new();
    let (sender, receiver) = generic_channel::<StdLock, u64, ArrayBuf<u64, [u64; 2]>>(2);
    let cx = &mut Context::from_waker(Waker::noop());
    let share = count / threads;
    match load {
        "try-lock" => in_threads(threads, || try_lock_pairs(&mutex, share)),
        "lock" => lock_pairs(&mutex, cx, count),
        "lock-queue" => lock_queue(&mutex, count),
        "try-acquire" => in_threads(threads, || try_acquire_pairs(&semaphore, share)),
        "acquire" => acquire_pairs(&semaphore, cx, count),
        "try-send" if threads < 2 => try_send_pairs(&channel, count),
        "try-send" => in_pairs(threads, || try_sends(&channel, 2 * share), || try_receives(&channel, 2 * share)),
        "send" => send_pairs(&channel, cx, count),
        "end-try-send" if threads < 2 => try_end_pairs(&sender, &receiver, count),
        "end-try-send" => {
            in_pairs(threads, || try_end_sends(&sender, 2 * share), || try_end_receives(&receiver, 2 * share))
        }
        "end-send" => end_pairs(&sender, &receiver, cx, count),
        _ => panic!("no such load: {load}"),
    }
}

fn main() {
    let words: Vec<String> = std::env::args().collect();
    let [_, load, count, threads] = &words[..] else {
        panic!("usage: sync LOAD COUNT THREADS");
    };
    println!("{}", run(load, count.parse().expect("a number"), threads.parse().expect("a number")));
}
