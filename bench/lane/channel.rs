// The program of lane.rt.txt, but over std's bounded channel.
//
//     items COUNT DEPTH, turns COUNT, wait MILLISECONDS
use std::env;
use std::hint::black_box;
use std::mem::MaybeUninit;
use std::sync::mpsc::sync_channel;
use std::thread;
use std::time::{Duration, Instant};

#[repr(C)]
struct Timespec {
    seconds: i64,
    nanoseconds: i64,
}

unsafe extern "C" {
    fn clock_gettime(clock: i32, time: *mut Timespec) -> i32;
}

// The processor time of all threads, in microseconds (Linux's CLOCK_PROCESS_CPUTIME_ID).
fn process_cpu_time() -> i64 {
    let mut time = MaybeUninit::<Timespec>::uninit();
    // SAFETY: the call writes the whole of `time` if it returns 0.
    let time = unsafe {
        assert_eq!(clock_gettime(2, time.as_mut_ptr()), 0);
        time.assume_init()
    };
    time.seconds * 1_000_000 + time.nanoseconds / 1_000
}

fn items(count: u64, depth: usize) -> u128 {
    let (tx, rx) = sync_channel::<u64>(depth);
    let start = Instant::now();
    let sender = thread::spawn(move || {
        for n in 0..count {
            tx.send(n).unwrap();
        }
    });
    let mut next = 0u64;
    while let Ok(n) = rx.recv() {
        if n == next {
            next += 1;
        }
    }
    sender.join().unwrap();
    let nanoseconds = start.elapsed().as_nanos();
    assert_eq!(next, count);
    nanoseconds
}

fn turns(count: u64) -> u128 {
    let (there_tx, there_rx) = sync_channel::<u64>(1);
    let (back_tx, back_rx) = sync_channel::<u64>(1);
    let start = Instant::now();
    let answering = thread::spawn(move || {
        while let Ok(n) = there_rx.recv() {
            back_tx.send(n).unwrap();
        }
    });
    for n in 0..count {
        there_tx.send(n).unwrap();
        black_box(back_rx.recv().unwrap());
    }
    drop(there_tx);
    answering.join().unwrap();
    start.elapsed().as_nanos()
}

fn waiting(nap: Duration) -> (i64, i64) {
    let (tx, rx) = sync_channel::<u64>(1);
    tx.send(1).unwrap();
    let before = process_cpu_time();
    thread::scope(|scope| {
        scope.spawn(|| tx.send(2).unwrap());
        thread::sleep(nap);
        rx.recv().unwrap();
    });
    let sender = process_cpu_time() - before;
    rx.recv().unwrap();
    let before = process_cpu_time();
    thread::scope(|scope| {
        scope.spawn(|| {
            thread::sleep(nap);
            tx.send(3).unwrap();
        });
        rx.recv().unwrap();
    });
    (sender, process_cpu_time() - before)
}

fn main() {
    let words: Vec<String> = env::args().collect();
    let number = |i: usize| words[i].parse::<u64>().unwrap();
    match words[1].as_str() {
        "items" => println!("{}", items(number(2), number(3) as usize)),
        "turns" => println!("{}", turns(number(2))),
        _ => {
            let (sender, receiver) = waiting(Duration::from_millis(number(2)));
            println!("{sender} {receiver}");
        }
    }
}
