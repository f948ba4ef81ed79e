// Threads that act on pages of their own under locks and write entries of so many bytes down, each into the page's history and
// into its own journal; then the journals are put in order, and compared with the histories. Nanoseconds an event of each.
use std::hint::black_box;
use std::mem::{size_of, take};
use std::sync::Mutex;
use std::thread;
use std::time::{Duration, Instant};

#[derive(Clone, Copy, PartialEq)]
#[repr(C)]
struct Entry<const WORDS: usize> {
    stamp: u64,
    before: u64,
    actor: u8,
    place: u32,
    words: [u64; WORDS],
}

#[repr(align(128))]
struct Kept<const WORDS: usize> {
    last: u64,
    page: Box<[u64; 512]>,
    history: Vec<Entry<WORDS>>,
}

#[inline(never)]
fn act<const WORDS: usize>(kept: &mut Kept<WORDS>, actor: u8, clock: u64, number: u64) -> Entry<WORDS> {
    let at = number as usize % 512;
    kept.page[at] = kept.page[at].wrapping_add(number);
    let mut words = [0; WORDS];
    words[0] = number;
    words[1] = kept.page[at];
    let stamp = kept.last.max(clock) + 1;
    let entry = Entry { stamp, before: kept.last, actor, place: u32::from(actor), words };
    kept.history.push(entry);
    kept.last = stamp;
    entry
}

fn work<const WORDS: usize>(lock: &Mutex<Kept<WORDS>>, actor: u8, steps: u64, journal: &mut Vec<Entry<WORDS>>) {
    // its own, so that no two threads write one cache line
    let mut own = take(journal);
    let mut clock = 0;
    for number in 0..steps {
        let entry = act(&mut lock.lock().unwrap(), actor, clock, number);
        clock = entry.stamp;
        own.push(entry);
    }
    *journal = own;
}

fn order<const WORDS: usize>(journals: &[Vec<Entry<WORDS>>], out: &mut Vec<Entry<WORDS>>) {
    let mut at = vec![0; journals.len()];
    while let Some(first) = (0..journals.len())
        .filter(|&i| at[i] < journals[i].len())
        .min_by_key(|&i| (journals[i][at[i]].stamp, journals[i][at[i]].actor))
    {
        out.push(journals[first][at[first]]);
        at[first] += 1;
    }
}

fn agree<const WORDS: usize>(events: &[Entry<WORDS>], histories: &[Vec<Entry<WORDS>>]) -> bool {
    let mut met = vec![0; histories.len()];
    events.iter().all(|event| {
        let place = event.place as usize;
        met[place] += 1;
        histories[place][met[place] - 1] == *event
    })
}

fn slice<const WORDS: usize>(threads: usize, steps: usize) -> [Duration; 3] {
    let kept = || Kept::<WORDS> { last: 0, page: Box::new([0; 512]), history: Vec::new() };
    let locks: Vec<_> = (0..threads).map(|_| Mutex::new(kept())).collect();
    let mut journals: Vec<_> = (0..threads).map(|_| Vec::with_capacity(steps)).collect();
    let mut events = Vec::with_capacity(threads * steps);
    let begin = Instant::now();
    thread::scope(|scope| {
        for (number, journal) in journals.iter_mut().enumerate() {
            let lock = &locks[number];
            scope.spawn(move || work(lock, number as u8, steps as u64, journal));
        }
    });
    let acts = begin.elapsed();
    let histories: Vec<_> = locks.into_iter().map(|lock| lock.into_inner().unwrap().history).collect();
    let begin = Instant::now();
    order(&journals, &mut events);
    let ordered = begin.elapsed();
    let begin = Instant::now();
    assert!(agree(&events, &histories));
    let compared = begin.elapsed();
    black_box((&events, &histories));
    [acts, ordered, compared]
}

fn measure<const WORDS: usize>(threads: usize, steps: usize) {
    let mut least = [Duration::MAX; 3];
    for _ in 0..20 {
        let times = slice::<WORDS>(threads, steps);
        for (least, time) in least.iter_mut().zip(times) {
            *least = time.min(*least);
        }
    }
    let each = least.map(|time| time.as_nanos() as f64 / (threads * steps) as f64);
    let bytes = size_of::<Entry<WORDS>>();
    println!("{bytes} bytes, {threads} threads: acts {:.0}, order {:.0}, comparison {:.0}", each[0], each[1], each[2]);
}

fn main() {
    measure::<28>(1, 24_576);
    measure::<28>(4, 13_107);
    measure::<7>(1, 24_576);
    measure::<7>(4, 13_107);
}
