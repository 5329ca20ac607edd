//! 'Packed text': four 6-bit codes make three bytes, first code highest.

use crate::answers::Refusal;
use crate::cases::Mode;

/// The bytes of all groups of a text.
pub fn packed_length(text: &[u8]) -> usize {
    text.len().div_ceil(4) * 3
}

/// All groups of a text, its last one filled with spaces; 7 for the first character that has no code.
pub fn packed(mode: Mode, text: &[u8]) -> Result<Vec<u8>, Refusal> {
    let no_code = |&character: &u8| code(mode, character).is_none();
    if let Some(place) = text.iter().position(no_code) {
        return Err(Refusal::BadCharacter(place as u16));
    }
    let code_at = |group: &[u8], place: usize| {
        let character = group.get(place).copied().unwrap_or(b' ');
        u32::from(code(mode, character).expect("every character has a code, the space too"))
    };
    let bytes_of = |group: &[u8]| {
        let joined = (0..4).fold(0, |joined, place| 64 * joined + code_at(group, place));
        let [_, first, second, third] = joined.to_be_bytes();
        [first, second, third]
    };
    Ok(text.chunks(4).flat_map(bytes_of).collect())
}

/// The characters of all whole groups.
pub fn unpacked(mode: Mode, packed: &[u8]) -> Vec<u8> {
    let characters_of = |group: &[u8]| {
        let joined = u32::from_be_bytes([0, group[0], group[1], group[2]]);
        [3, 2, 1, 0].map(|place| character(mode, (joined / 64u32.pow(place) % 64) as u8))
    };
    packed.chunks_exact(3).flat_map(characters_of).collect()
}

/// The groups, of so many bytes each, that fit into the room.
pub fn whole_groups(bytes: &[u8], group: usize, room: usize) -> Vec<u8> {
    bytes[..bytes.len().min(room / group * group)].to_vec()
}

fn code(mode: Mode, character: u8) -> Option<u8> {
    match mode {
        Mode::Crate => Some(character.saturating_sub(0x20) % 64),
        Mode::Standard => (0x20..=0x5F).contains(&character).then_some(character % 64),
    }
}

fn character(mode: Mode, code: u8) -> u8 {
    match mode {
        Mode::Crate => code + 0x20,
        Mode::Standard if code < 32 => code + 64,
        Mode::Standard => code,
    }
}
