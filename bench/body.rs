// Reads a full month of longest lines with the proved reader and with a plain Rust one written for the comparison.
// Prints the medians of 101 readings each, in nanoseconds, and their ratio.
use std::time::Instant;

unsafe extern "C" {
    // a slice passes as its pointer and its length
    fn read_may(text: *const u8, len: usize) -> u8;
}

const SLOTS: usize = 1488;
const ROUNDS: usize = 101;

#[derive(Clone, Copy, PartialEq, Eq)]
enum Outage {
    NoOutage,
    PlannedStop,
    UnplannedStop,
    PlannedSuppression,
    UnplannedSuppression,
}

#[derive(Clone, Copy)]
#[allow(dead_code)]
struct Slot {
    supply: u32,
    plan: u32,
    offer: u32,
    meter: u32,
    outage: Outage,
    low_reserve: bool,
    dispatched: bool,
    papers: bool,
}

const EMPTY: Slot = Slot {
    supply: 0,
    plan: 0,
    offer: 0,
    meter: 0,
    outage: Outage::NoOutage,
    low_reserve: false,
    dispatched: false,
    papers: false,
};

fn number(rest: &[u8], end: u8) -> Option<(u32, &[u8])> {
    let mut n = 0;
    let mut digits = 0;
    while let Some(b @ b'0'..=b'9') = rest.get(digits) {
        if digits == 7 {
            return None;
        }
        n = n * 10 + u32::from(b - b'0');
        digits += 1;
    }
    if digits == 0 || (digits > 1 && rest[0] == b'0') || rest.get(digits) != Some(&end) {
        return None;
    }
    Some((n, &rest[digits + 1..]))
}

fn flag(b: u8, letter: u8) -> Option<bool> {
    match b {
        b'-' => Some(false),
        _ if b == letter => Some(true),
        _ => None,
    }
}

fn line(rest: &[u8]) -> Option<(Slot, &[u8])> {
    let (supply, rest) = number(rest, b' ')?;
    let (plan, rest) = number(rest, b' ')?;
    let (offer, rest) = number(rest, b' ')?;
    let (meter, rest) = number(rest, b' ')?;
    let [outage, low, dispatch, papers, b'\n', rest @ ..] = rest else {
        return None;
    };
    let outage = match outage {
        b'-' => Outage::NoOutage,
        b'P' => Outage::PlannedStop,
        b'U' => Outage::UnplannedStop,
        b'p' => Outage::PlannedSuppression,
        b'u' => Outage::UnplannedSuppression,
        _ => return None,
    };
    let slot = Slot {
        supply,
        plan,
        offer,
        meter,
        outage,
        low_reserve: flag(*low, b'L')?,
        dispatched: flag(*dispatch, b'D')?,
        papers: flag(*papers, b'E')?,
    };
    Some((slot, rest))
}

fn read(text: &[u8], slots: &mut [Slot]) -> Result<(), u8> {
    let mut read = [EMPTY; SLOTS];
    let mut rest = text;
    for slot in read.iter_mut() {
        if rest.is_empty() {
            return Err(11);
        }
        let (next, more) = line(rest).ok_or(9)?;
        if next.supply > 2_000_000 || next.plan > 2_000_000 || next.offer > 2_000_000 || next.meter > 1_000_000 {
            return Err(10);
        }
        *slot = next;
        rest = more;
    }
    if !rest.is_empty() {
        return Err(11);
    }
    slots.copy_from_slice(&read);
    Ok(())
}

#[inline(never)]
fn read_plain(text: &[u8]) -> u8 {
    let mut slots = [EMPTY; SLOTS];
    let answer = read(text, &mut slots).err().unwrap_or(0);
    std::hint::black_box(&slots);
    answer
}

fn read_proved(text: &[u8]) -> u8 {
    unsafe { read_may(text.as_ptr(), text.len()) }
}

fn timed(read: impl Fn(&[u8]) -> u8, text: &[u8], wanted: u8) -> u128 {
    let start = Instant::now();
    let answer = read(std::hint::black_box(text));
    let time = start.elapsed().as_nanos();
    assert_eq!(answer, wanted);
    time
}

fn main() {
    let longest = "2000000 2000000 2000000 1000000 uLDE\n".repeat(SLOTS);
    let text = longest.as_bytes();
    for (damaged, wanted) in [("x", 9), ("9999999", 10), ("", 11)] {
        let damaged = longest.replacen("2000000", damaged, if wanted == 11 { 0 } else { 1 });
        let damaged = if wanted == 11 { &damaged[37..] } else { &damaged[..] };
        assert_eq!((read_plain(damaged.as_bytes()), read_proved(damaged.as_bytes())), (wanted, wanted));
    }
    let (mut proved, mut plain) = (Vec::new(), Vec::new());
    for _ in 0..ROUNDS {
        proved.push(timed(read_proved, text, 0));
        plain.push(timed(read_plain, text, 0));
    }
    proved.sort();
    plain.sort();
    let (proved, plain) = (proved[ROUNDS / 2], plain[ROUNDS / 2]);
    println!("{} bytes: proved {proved} ns, plain Rust {plain} ns, ratio {:.2}", text.len(), proved as f64 / plain as f64);
}
