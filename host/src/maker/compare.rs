//! Whether a file holds what its text gives.

/// Where `found` is not what was `made`, in words; nothing where they are equal.
pub fn difference(made: &[u8], found: &[u8]) -> Option<String> {
    if made == found {
        return None;
    }
    let place = made.iter().zip(found).position(|(made, found)| made != found);
    Some(match place {
        Some(place) => format!("byte {place} is {:02x}, where the text gives {:02x}", found[place], made[place]),
        None => format!("it has {} bytes, where the text gives {}", found.len(), made.len()),
    })
}
