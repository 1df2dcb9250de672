//! Censuses that end early or have too many slots: nothing is read behind them.

use super::fingerprint::fingerprint;
use super::{report, Kept, Slot, DOMAINS, VALUE};
use crate::clocks::clock;
use crate::pipe::prints;

pub fn compare(program: &[String]) -> Result<bool, String> {
    let whole = two_of_one_server().bytes();
    let mut equal = true;
    let cuts = cuts(&whole);
    for cut in &cuts {
        for input in [cut.clone(), [&whole[..], cut].concat()] {
            equal &= prints(program, &input, &report(&input, Kept::unite))?;
        }
    }
    println!("cut: none, and each of {} that are no whole census, alone and behind one", cuts.len() - 1);
    Ok(equal)
}

/// The census without its end, at the edges of its numbers and slots; and with too many slots, and bytes enough for them behind. The first is empty.
fn cuts(whole: &[u8]) -> Vec<Vec<u8>> {
    let places = [0, 1, 2, 3, 5, 6, 10, 11, 521, 522, 523, 526, 534, 535, 1557, 1558, 1559, whole.len() - 1];
    let shorter = places.map(|end| whole[..end].to_vec());
    let longer = [[1, 0], [1, 1], [255, 255]].map(|used: [u8; 2]| [&used[..], &whole[2..], &vec![0; 260 * (VALUE + 12)]].concat());
    shorter.into_iter().chain(longer).collect()
}

fn two_of_one_server() -> Kept {
    let slots: Vec<Slot> = ["ntp=[2001:db8::1]:123", "ntp=[2001:DB8:0::1]:123"].map(|value| slot(3, value)).into();
    Kept { total: 7, refused: 1, domains: [0; DOMAINS], slots }
}

fn slot(streams: u32, text: &str) -> Slot {
    let mut value = [0; VALUE];
    value[..text.len()].copy_from_slice(text.as_bytes());
    let print = clock(text.as_bytes()).map_or(0, |clock| fingerprint(&clock.record));
    Slot { streams, print, len: text.len() as u32, value }
}
