//! Rate sheets for comparisons of sheet readers and writers, well formed and
//! damaged: document 02, request 2.

use crate::generate::{self, damaged, number, with_length};
use crate::random::Random;
use crate::records::field;

/// Object, currency, numerator and denominator.
pub type Numbers = [u64; 4];

const TAGS: [u8; 4] = [0x05, 0x06, 0x0C, 0x0D];
/// Values on both sides of each limit.
const OBJECTS: [u64; 4] = [0, 1, 2, u64::MAX];
const CURRENCIES: [u64; 9] = [0, 1, 978, 999, 1000, 65_535, 65_536, 65_536 + 978, u64::MAX];
const PARTS: [u64; 8] = [0, 1, 2, BILLION - 1, BILLION, BILLION + 1, 1 << 32, u64::MAX];
const BILLION: u64 = 1_000_000_000;

/// Sheets of which every single byte is changed.
const SAMPLES: [Numbers; 5] = [
    [4, 978, 11, 10],
    [1, 1, 1, 1],
    [u64::MAX, 999, BILLION, BILLION],
    [256, 256, 255, BILLION - 1],
    [1 << 56, 512, 1 << 24, 3],
];

/// The four fields of a sheet; of a currency the last 16 bits.
fn fields(numbers: &Numbers) -> Vec<Vec<u8>> {
    let values = TAGS.into_iter().zip(numbers.map(u64::to_be_bytes));
    let narrow = |(tag, value): (u8, [u8; 8])| match tag {
        0x06 => field(tag, &value[6..]),
        _ => field(tag, &value),
    };
    values.map(narrow).collect()
}

fn record(fields: &[Vec<u8>]) -> Vec<u8> {
    field(0x50, &fields.concat())
}

/// The bytes of a sheet with these values, whether a reader takes them or not.
pub fn bytes(numbers: &Numbers) -> Vec<u8> {
    record(&fields(numbers))
}

/// The values at the limits, each with each.
pub fn edges() -> Vec<Numbers> {
    let mut edges = Vec::new();
    for object in OBJECTS {
        for currency in CURRENCIES {
            for numerator in PARTS {
                edges.extend(PARTS.map(|denominator| [object, currency, numerator, denominator]));
            }
        }
    }
    edges
}

/// The sheets that every comparison starts with.
pub fn fixed() -> Vec<Vec<u8>> {
    let mut sheets: Vec<Vec<u8>> = edges().iter().map(bytes).collect();
    for numbers in SAMPLES {
        let sheet = bytes(&numbers);
        sheets.extend(one_byte_replaced(&sheet));
        sheets.extend(other_ends(&sheet));
        sheets.extend(other_fields(&fields(&numbers)));
        sheets.extend(other_lengths(&numbers));
        sheets.extend(long(&bytes(&numbers)));
    }
    sheets
}

/// Every byte of the sheet replaced by every other.
fn one_byte_replaced(sheet: &[u8]) -> Vec<Vec<u8>> {
    let mut sheets = Vec::new();
    for place in 0..sheet.len() {
        for byte in 0..=255 {
            let mut other = sheet.to_vec();
            other[place] = byte;
            sheets.push(other);
        }
    }
    sheets
}

/// Cut at each end, lengthened, and with one byte fewer or more anywhere, also
/// where the outer length agrees.
fn other_ends(sheet: &[u8]) -> Vec<Vec<u8>> {
    let mut sheets = vec![[sheet, sheet].concat()];
    for place in 0..=sheet.len() {
        sheets.extend([&sheet[..place], &sheet[place..]].map(<[u8]>::to_vec));
        sheets.push([&sheet[..place], &[0], &sheet[place..]].concat());
        sheets.push([sheet, &sheet[..place]].concat());
        if place < sheet.len() {
            sheets.push([&sheet[..place], &sheet[place + 1..]].concat());
        }
    }
    let agreeing: Vec<Vec<u8>> = sheets.iter().map(|sheet| with_length(sheet)).collect();
    sheets.extend(agreeing);
    sheets
}

/// The fields in every order, and each missing or standing twice.
fn other_fields(fields: &[Vec<u8>]) -> Vec<Vec<u8>> {
    let mut sheets = Vec::new();
    for order in 0..256 {
        // Four places of two bits: also orders in which a field stands twice.
        let places = [order >> 6, order >> 4 & 3, order >> 2 & 3, order & 3];
        sheets.push(record(&places.map(|place| fields[place].clone())));
    }
    for place in 0..fields.len() {
        let (mut missing, mut doubled) = (fields.to_vec(), fields.to_vec());
        missing.remove(place);
        doubled.insert(place, fields[place].clone());
        sheets.extend([missing, doubled].map(|fields| record(&fields)));
    }
    sheets
}

/// Values of every width up to 10, and lengths that are one too large or too
/// small, also so that their sum stays.
fn other_lengths(numbers: &Numbers) -> Vec<Vec<u8>> {
    let mut sheets = Vec::new();
    for place in 0..TAGS.len() {
        for width in 0..=10 {
            let mut fields = fields(numbers);
            let wide = [[0; 2].as_slice(), &numbers[place].to_be_bytes()].concat();
            fields[place] = field(TAGS[place], &wide[10 - width..]);
            sheets.push(record(&fields));
        }
        // The lengths alone change; the values stay.
        for (one, other) in [(1, 255), (255, 1), (1, 0), (0, 1)] {
            let mut fields = fields(numbers);
            let next = (place + 1) % TAGS.len();
            fields[place][2] = fields[place][2].wrapping_add(one);
            fields[next][2] = fields[next][2].wrapping_add(other);
            sheets.push(record(&fields));
        }
    }
    sheets
}

/// The sheet and so many bytes that the outer length, or the length's last 16
/// bits, agree with them; and the longest record of its tag.
fn long(sheet: &[u8]) -> [Vec<u8>; 3] {
    let (mut within, mut around) = (sheet.to_vec(), sheet.to_vec());
    within.resize(3 + 65_535, 0);
    around.resize(sheet.len() + 65_536, 0);
    [with_length(&within), around, field(0x50, &[0; 65_535])]
}

/// A numerator or denominator that a reader takes.
pub fn part(random: &mut Random) -> u64 {
    match random.below(4) {
        0 => random.pick(&[1, 2, 3, 10, 11, BILLION - 1, BILLION]),
        1 => 1 + random.below(20),
        _ => 1 + random.magnitude() % BILLION,
    }
}

/// The numbers of a sheet that a reader takes.
pub fn well_formed(random: &mut Random) -> Numbers {
    let currency = match random.below(3) {
        0 => random.pick(&[1, 756, 978, 999]),
        _ => 1 + random.below(999),
    };
    [number(random).max(1), currency, part(random), part(random)]
}

/// The numbers of a sheet, most often one or two of them replaced by values
/// that a reader may not take.
pub fn loose(random: &mut Random) -> Numbers {
    let mut numbers = well_formed(random);
    for _ in 0..random.below(3) {
        match random.below(5) {
            0 => numbers[0] = random.pick(&OBJECTS),
            1 => numbers[1] = random.pick(&CURRENCIES),
            2 => numbers[2] = random.pick(&PARTS),
            3 => numbers[3] = random.pick(&PARTS),
            _ => numbers[random.index(4)] = number(random),
        }
    }
    numbers
}

/// A well-formed sheet, one with any values, a damaged one, or another record.
pub fn random(random: &mut Random) -> Vec<u8> {
    let sheet = bytes(&well_formed(random));
    match random.below(8) {
        0..=2 => sheet,
        3 | 4 => bytes(&loose(random)),
        5 | 6 => {
            let other = bytes(&loose(random));
            damaged(random, &sheet, &other)
        }
        _ => {
            let other = generate::record(random);
            match random.below(2) {
                0 => other,
                _ => damaged(random, &other, &sheet),
            }
        }
    }
}

#[cfg(test)]
mod tests {
    use super::*;
    use crate::desk::{read_sheet, write_sheet, Sheet};

    #[test]
    fn the_bytes_are_those_of_a_sheet() {
        let sheet = Sheet { object: 4, currency: 978, numerator: 11, denominator: 10 };
        assert_eq!(Some(bytes(&SAMPLES[0])), write_sheet(&sheet));
        for numbers in SAMPLES {
            assert_eq!(bytes(&numbers).len(), 41);
            assert!(read_sheet(&bytes(&numbers)).is_some(), "{numbers:?}");
        }
    }

    #[test]
    fn generated_sheets_are_of_every_sort() {
        let mut seed = Random::new(4);
        let (mut taken, mut refused) = (0, 0);
        let mut lengths = [0; 83];
        let random = (0..50_000).map(|_| random(&mut seed));
        for sheet in fixed().into_iter().chain(random) {
            if let Some(times) = lengths.get_mut(sheet.len()) {
                *times += 1;
            }
            match read_sheet(&sheet) {
                None => refused += 1,
                Some(read) => {
                    taken += 1;
                    assert_eq!(write_sheet(&read), Some(sheet));
                }
            }
        }
        assert!(taken > 20_000 && refused > 20_000, "{taken} {refused}");
        assert!(lengths.iter().all(|&times| times > 5), "{lengths:?}");
    }

    #[test]
    fn numbers_on_both_sides_of_the_limits_are_generated() {
        let mut random = Random::new(5);
        let mut taken = 0;
        for _ in 0..20_000 {
            assert!(read_sheet(&bytes(&well_formed(&mut random))).is_some());
            taken += usize::from(read_sheet(&bytes(&loose(&mut random))).is_some());
        }
        assert!((5_000..15_000).contains(&taken), "{taken}");
    }
}
