// Puts so many entries into std's ordered map, and then gets each, and then goes to the one after each.
use std::collections::BTreeMap;
use std::ops::Bound;

// The key of a number, 16 letters and four more, in no order.
fn key_of(number: u64) -> [u8; 20] {
    let mut mixed = number.wrapping_add(0x9E37_79B9_7F4A_7C15);
    mixed = (mixed ^ (mixed >> 30)).wrapping_mul(0xBF58_476D_1CE4_E5B9);
    mixed = (mixed ^ (mixed >> 27)).wrapping_mul(0x94D0_49BB_1331_11EB);
    mixed ^= mixed >> 31;
    let mut key = [b'k'; 20];
    for i in 0..16 {
        key[i] = b'a' + (mixed % 16) as u8;
        mixed /= 16;
    }
    key
}

fn has_after(map: &BTreeMap<Vec<u8>, Vec<u8>>, key: &[u8]) -> bool {
    let mut from = map.range::<[u8], _>((Bound::Included(key), Bound::Unbounded));
    from.next().is_some() && from.next().is_some()
}

fn main() {
    let words: Vec<u64> = std::env::args().skip(1).map(|word| word.parse().unwrap()).collect();
    let (count, parts) = (words[0], words[1]);
    let mut map = BTreeMap::new();
    for n in 0..count {
        map.insert(key_of(n).to_vec(), b"value678".to_vec());
    }
    let mut found = 0;
    if parts > 1 {
        found += (0..count).filter(|&n| map.contains_key(&key_of(n)[..])).count();
    }
    if parts > 2 {
        found += (0..count).filter(|&n| has_after(&map, &key_of(n))).count();
    }
    println!("{found}");
}
