//! "The roster of addresses".

use crate::number;

/// "There are 254 places, one for each address, each a mark and a serial of 16 bytes."
pub const PLACES: usize = 254;
pub const PLACE_BYTES: usize = 17;
const SERIAL_BYTES: usize = 16;

type Place = Vec<u8>;

/// A roster over bytes is whole places alone; with other bytes it has "another size".
pub fn places_of(bytes: &[u8]) -> Option<Vec<Place>> {
    (bytes.len() == PLACES * PLACE_BYTES).then(|| cut_into_places(bytes))
}

pub fn cut_into_places(bytes: &[u8]) -> Vec<Place> {
    bytes.chunks_exact(PLACE_BYTES).map(<[u8]>::to_vec).collect()
}

pub fn bytes_of(places: &[Place]) -> Vec<u8> {
    places.concat()
}

fn is_used(place: &Place) -> bool {
    place[0] == 1
}

fn serial_of(place: &Place) -> &[u8] {
    &place[1..]
}

/// "A mark is 0 or 1; a free place is all zero; no two used places share a serial. Otherwise,
/// or with another size, the roster is spoilt: 18."
fn is_spoilt(places: &[Place]) -> bool {
    places.len() != PLACES
        || places.iter().any(|place| !mark_and_rest_agree(place))
        || used_places_share_a_serial(places)
}

fn mark_and_rest_agree(place: &Place) -> bool {
    match place[0] {
        0 => serial_of(place).iter().all(|&byte| byte == 0),
        1 => true,
        _ => false,
    }
}

fn used_places_share_a_serial(places: &[Place]) -> bool {
    let mut serials: Vec<&[u8]> =
        places.iter().filter(|place| is_used(place)).map(serial_of).collect();
    serials.sort();
    serials.windows(2).any(|pair| pair[0] == pair[1])
}

/// The address of the place where the serial is, if it is there.
fn address_of(places: &[Place], serial: &[u8]) -> Option<u8> {
    let holds_it = |place: &Place| is_used(place) && serial_of(place) == serial;
    places.iter().position(holds_it).map(address_of_place)
}

/// "the lowest free address, freed ones included".
fn lowest_free(places: &[Place]) -> Option<u8> {
    places.iter().position(|place| !is_used(place)).map(address_of_place)
}

fn address_of_place(place: usize) -> u8 {
    (place + 1) as u8
}

/// "Tests: 18, then 17 (serial not 16 bytes)".
fn refusal_of_a_serial(places: &[Place], serial: &[u8]) -> Result<(), u8> {
    if is_spoilt(places) {
        return Err(number::SPOILT);
    }
    if serial.len() != SERIAL_BYTES {
        return Err(number::NOT_FOR_THIS_CALL);
    }
    Ok(())
}

/// "a serial already there keeps its address; a new one gets the lowest free address, freed
/// ones included; 14 exactly if all 254 are used by others." "Only the one place changes."
pub fn give(places: &mut [Place], serial: &[u8]) -> Result<u8, u8> {
    refusal_of_a_serial(places, serial)?;
    if let Some(address) = address_of(places, serial) {
        return Ok(address);
    }
    let address = lowest_free(places).ok_or(number::ROSTER_FULL)?;
    let place = &mut places[usize::from(address) - 1];
    place[0] = 1;
    place[1..].copy_from_slice(serial);
    Ok(address)
}

/// "Removing zeroes the place." "16 (address 0, 255 or free)".
pub fn remove(places: &mut [Place], address: u8) -> Result<(), u8> {
    if is_spoilt(places) {
        return Err(number::SPOILT);
    }
    if address == 0 || address == 255 {
        return Err(number::WRONG_ADDRESS_OR_EXPONENT_TOO_LOW);
    }
    let place = &mut places[usize::from(address) - 1];
    if !is_used(place) {
        return Err(number::WRONG_ADDRESS_OR_EXPONENT_TOO_LOW);
    }
    place.fill(0);
    Ok(())
}

/// The paper names find and gives it no number for a serial that is not there: read as done
/// (0) with the address 0, which is no address.
pub fn find(places: &[Place], serial: &[u8]) -> Result<u8, u8> {
    refusal_of_a_serial(places, serial)?;
    Ok(address_of(places, serial).unwrap_or(NOT_THERE))
}

const NOT_THERE: u8 = 0;
