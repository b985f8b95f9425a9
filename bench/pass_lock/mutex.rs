// The same work as `benches lock`, over std's `Mutex`: each of THREADS threads pushes TURNS events onto one list, one in a turn.
use std::env;
use std::sync::Mutex;
use std::thread;

struct Event {
    who: u64,
    n: u64,
}

struct Desk {
    events: Vec<Event>,
    stamp: u64,
}

fn main() {
    let mut args = env::args().skip(1);
    let threads: u64 = args.next().and_then(|word| word.parse().ok()).unwrap_or(2);
    let turns: u64 = args.next().and_then(|word| word.parse().ok()).unwrap_or(1_000);
    let desk = Mutex::new(Desk {
        events: Vec::new(),
        stamp: 0,
    });
    thread::scope(|scope| {
        for who in 0..threads {
            let desk = &desk;
            scope.spawn(move || {
                for n in 0..turns {
                    let mut desk = desk.lock().unwrap();
                    desk.events.push(Event { who, n });
                    desk.stamp = desk.stamp.wrapping_add(1);
                }
            });
        }
    });
    let desk = desk.into_inner().unwrap();
    let last = desk.events.iter().all(|event| event.who < threads && event.n < turns);
    assert!(last && desk.stamp == threads * turns);
    println!("{}", desk.events.len());
}
