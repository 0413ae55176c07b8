//! "The lodging message."

use crate::types::*;

/// The bits of the hour map.
const MAP: u32 = (1 << MOST_HOURS) - 1;

/// The length of a message of `named` hours.
fn length(execution: bool, named: usize) -> usize {
    if execution {
        8 + (17 * named).div_ceil(8)
    } else {
        8 + 4 * named
    }
}

fn contract_fits(execution: bool, contract: u32) -> bool {
    if execution {
        (1..=65_535).contains(&contract)
    } else {
        contract == 0
    }
}

/// Whether a key's unit and contract are within their ranges.
pub(super) fn key_fits(key: &Key) -> bool {
    (1..=65_535).contains(&key.unit) && contract_fits(key.execution, key.contract)
}

/// The hours named by a map, from 0, rising.
fn named_hours(map: u32) -> impl Iterator<Item = usize> {
    let mut left = map << (32 - MOST_HOURS as u32);
    std::iter::from_fn(move || {
        if left == 0 {
            return None;
        }
        let hour = left.leading_zeros();
        left &= !(1 << 31 >> hour);
        Some(hour as usize)
    })
}

/// The fields of a message in which hours 1 to `hours` may be named.
pub(super) fn read_within(message: &[u8], hours: usize) -> Result<Fields, Refusal> {
    let Some((head, body)) = message.split_first_chunk::<8>() else {
        return Err(Refusal::Form);
    };
    let head = u64::from_be_bytes(*head);
    let bits = |low: u32, width: u32| (head >> low) as u32 & ((1 << width) - 1);
    let (form, kind, default, unit, contract, map) =
        (bits(60, 4), bits(58, 2), bits(57, 1), bits(41, 16), bits(25, 16), bits(0, 25));
    if form != 1 || kind > 1 {
        return Err(Refusal::Form);
    }
    let execution = kind == 1;
    let named = map.count_ones() as usize;
    if message.len() != length(execution, named) {
        return Err(Refusal::Form);
    }
    if execution && named > 0 {
        let filling = 8 * body.len() - 17 * named;
        if body[body.len() - 1] & ((1 << filling) - 1) != 0 {
            return Err(Refusal::Form);
        }
    }
    if map == 0 || map & (MAP >> hours) != 0 {
        return Err(Refusal::Hour);
    }
    let key = Key { execution, default: default == 1, unit, contract };
    let mut fields = Fields { key, map, energies: [0; MOST_HOURS], prices: [0; MOST_HOURS] };
    let mut fits = key_fits(&key);
    for (index, hour) in named_hours(map).enumerate() {
        let (energy, price) = if execution {
            (seventeen_bits(body, index), 0)
        } else {
            let pair = u32::from_be_bytes(body[4 * index..4 * index + 4].try_into().unwrap());
            (pair >> 15, pair & 0x7fff)
        };
        fits &= energy != 0 && energy <= LARGEST_ENERGY && price <= HIGHEST_PRICE;
        fields.energies[hour] = energy;
        fields.prices[hour] = price;
    }
    if fits {
        Ok(fields)
    } else {
        Err(Refusal::Range)
    }
}

/// The 17 bits number `index` of a body.
fn seventeen_bits(body: &[u8], index: usize) -> u32 {
    let (byte, bit) = (17 * index / 8, 17 * index % 8);
    // They lie in three bytes: the start is at most bit 7, and 7 + 17 = 24.
    let three = (body[byte] as u32) << 16 | (body[byte + 1] as u32) << 8 | body[byte + 2] as u32;
    three >> (7 - bit) & 0x1_ffff
}

/// The fields of a message, by itself.
pub fn read(message: &[u8]) -> Result<Fields, Refusal> {
    read_within(message, MOST_HOURS)
}

/// The message of the fields into the buffer, and its length.
pub fn write(fields: &Fields, buffer: &mut [u8]) -> Result<usize, Refusal> {
    let Fields { key, map, energies, prices } = fields;
    if *map == 0 || *map > MAP {
        return Err(Refusal::Hour);
    }
    let mut fits = key_fits(key);
    for hour in 0..MOST_HOURS {
        let (energy, price) = (energies[hour], prices[hour]);
        if map >> (MOST_HOURS - 1 - hour) & 1 == 1 {
            fits &= energy != 0 && energy <= LARGEST_ENERGY;
            fits &= if key.execution { price == 0 } else { price <= HIGHEST_PRICE };
        } else {
            fits &= energy == 0 && price == 0;
        }
    }
    if !fits {
        return Err(Refusal::Range);
    }
    let length = length(key.execution, map.count_ones() as usize);
    let Some(message) = buffer.get_mut(..length) else {
        return Err(Refusal::Short);
    };
    let head = 1 << 60
        | u64::from(key.execution) << 58
        | u64::from(key.default) << 57
        | u64::from(key.unit) << 41
        | u64::from(key.contract) << 25
        | u64::from(*map);
    message[..8].copy_from_slice(&head.to_be_bytes());
    let body = &mut message[8..];
    if key.execution {
        write_energies(body, named_hours(*map).map(|hour| energies[hour]));
    } else {
        for (place, hour) in body.chunks_exact_mut(4).zip(named_hours(*map)) {
            place.copy_from_slice(&(energies[hour] << 15 | prices[hour]).to_be_bytes());
        }
    }
    Ok(length)
}

/// Energies of 17 bits one after another, zero bits to the end of the last byte.
fn write_energies(body: &mut [u8], energies: impl Iterator<Item = u32>) {
    let (mut held, mut bits, mut at) = (0u64, 0, 0);
    for energy in energies {
        held = held << 17 | u64::from(energy);
        bits += 17;
        while bits >= 8 {
            bits -= 8;
            body[at] = (held >> bits) as u8;
            at += 1;
        }
    }
    if bits > 0 {
        body[at] = (held << (8 - bits)) as u8;
    }
}
