// The same as the program of crates/turn_cell_bench, over std's bounded channels: one value goes over in a parcel and comes back.
use std::sync::mpsc::sync_channel;
use std::thread;

struct Ball {
    throw: u64,
}

struct Parcel {
    number: u64,
    upto: u64,
    value: Ball,
}

fn main() {
    let count: u64 = std::env::args().nth(1).and_then(|word| word.parse().ok()).unwrap_or(1000);
    let (hand, poll) = sync_channel::<Parcel>(1);
    let (give_back, look) = sync_channel::<Ball>(1);
    give_back.send(Ball { throw: 0 }).unwrap();
    let lane = thread::spawn(move || {
        let mut handed = 0;
        while handed < count {
            let _ = look.recv().unwrap();
            handed += 1;
            hand.send(Parcel { number: handed, upto: handed, value: Ball { throw: handed } }).unwrap();
        }
        // the last value comes back too
        let last = look.recv().unwrap();
        (handed, last.throw)
    });
    let daemon = thread::spawn(move || {
        let mut taken = 0;
        while taken < count {
            let parcel = poll.recv().unwrap();
            assert!(parcel.number == taken + 1 && parcel.upto == parcel.number);
            taken += 1;
            give_back.send(parcel.value).unwrap();
        }
        taken
    });
    let (handed, last) = lane.join().unwrap();
    let taken = daemon.join().unwrap();
    assert!(last == handed || count == 0);
    println!("handed {handed} taken {taken}");
}
