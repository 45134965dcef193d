// The work of bench_board with a queue of places under a lock, by hand: the words are the places, the steps of a place, the
// workers and the turns. It prints the sum of the last turn. bench/board.py builds it.
use std::collections::VecDeque;
use std::sync::Mutex;
use std::thread;

fn piece(place: u64, steps: u64) -> u64 {
    let mut x = place.wrapping_add(1);
    for _ in 0..steps {
        x = (x ^ (x >> 29)).wrapping_mul(0xbf58476d1ce4e5b9);
    }
    x
}

fn work(places: u64, steps: u64, workers: u64) -> Vec<u64> {
    let queue: Mutex<VecDeque<u64>> = Mutex::new((0..places).collect());
    let pieces: Mutex<Vec<u64>> = Mutex::new(vec![0; places as usize]);
    let run = || loop {
        let place = queue.lock().unwrap().pop_front();
        let Some(place) = place else { return };
        let made = piece(place, steps);
        pieces.lock().unwrap()[place as usize] = made;
    };
    thread::scope(|scope| {
        for _ in 1..workers {
            scope.spawn(run);
        }
        run();
    });
    pieces.into_inner().unwrap()
}

fn main() {
    let words: Vec<u64> = std::env::args().skip(1).map(|word| word.parse().unwrap()).collect();
    let mut sum = 0u64;
    for _ in 0..words[3] {
        sum = work(words[0], words[1], words[2]).iter().fold(0, |sum, piece| sum.wrapping_add(*piece));
    }
    println!("{sum}");
}
