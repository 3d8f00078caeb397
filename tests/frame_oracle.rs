//! The frame layer of document 01 in plain Rust. It shares nothing with the archive, takes the
//! same arguments and gives the same answers.

pub const TAKEN: u32 = 0;
pub const REFUSED_PREAMBLE: u32 = 3;
pub const REFUSED_ADDRESS: u32 = 4;
pub const REFUSED_DATA_LONG: u32 = 6;
pub const REFUSED_DATA_LENGTH: u32 = 9;
pub const REFUSED_FEW_PREAMBLES: u32 = 11;
pub const REFUSED_NO_DELIMITER: u32 = 12;
pub const REFUSED_ENDS_EARLY: u32 = 13;
pub const REFUSED_UNSOUND: u32 = 14;
pub const REFUSED_BUFFER_SHORT: u32 = 15;

pub const BACK: u8 = 1;
pub const STX: u8 = 2;
pub const ACK: u8 = 6;

pub const PREAMBLE: u8 = 0xFF;
pub const LONG: u8 = 0x80;

pub const LONGEST_FRAME: usize = 284;

/// Preamble, type, long address, master bit, burst flag, address, expansion bytes, command,
/// start of the data, count, end.
pub type Fields = [u64; 11];

#[inline(never)]
#[allow(clippy::too_many_arguments)]
pub fn write(
    preamble: usize,
    frame_type: u8,
    long_address: bool,
    primary: bool,
    burst: bool,
    address: u64,
    command: u8,
    data: &[u8],
    buffer: &mut [u8],
    place: usize,
    end: &mut usize,
) -> u32 {
    if let Some(refusal) = refusal(preamble, frame_type, long_address, address, data.len()) {
        return refusal;
    }
    let length = frame_length(preamble, long_address, data.len());
    let from_place = buffer.get_mut(place..).unwrap_or_default();
    let Some(frame) = from_place.get_mut(..length) else {
        return REFUSED_BUFFER_SHORT;
    };
    let (preambles, body) = frame.split_at_mut(preamble);
    preambles.fill(PREAMBLE);
    let flags = u8::from(primary) << 7 | u8::from(burst) << 6;
    let [.., a4, a3, a2, a1, a0] = address.to_be_bytes();
    let count = data.len() as u8;
    if long_address {
        let (delimiter, a4) = (LONG | frame_type, flags | a4);
        let header = [delimiter, a4, a3, a2, a1, a0, command, count];
        put_body(body, header, data);
    } else {
        put_body(body, [frame_type, flags | a0, command, count], data);
    }
    *end = place + length;
    TAKEN
}

/// Delimiter, address, command and count, then the data, then their check byte.
fn put_body<const HEADER: usize>(body: &mut [u8], header: [u8; HEADER], data: &[u8]) {
    let (header_bytes, behind_header) = body.split_at_mut(HEADER);
    let (data_bytes, check_byte) = behind_header.split_at_mut(data.len());
    header_bytes.copy_from_slice(&header);
    data_bytes.copy_from_slice(data);
    check_byte[0] = exclusive_or(&header) ^ exclusive_or(data);
}

pub fn frame_length(preamble: usize, long_address: bool, count: usize) -> usize {
    let header = if long_address { 8 } else { 4 };
    preamble + header + count + 1
}

/// The lowest refusal that does not depend on the buffer.
/// The lowest of the writer's refusals, the buffer aside.
pub fn refusal(
    preamble: usize,
    frame_type: u8,
    long_address: bool,
    address: u64,
    count: usize,
) -> Option<u32> {
    let address_bits = if long_address { 38 } else { 6 };
    if !(5..=20).contains(&preamble) {
        return Some(REFUSED_PREAMBLE);
    }
    if address >> address_bits != 0 {
        return Some(REFUSED_ADDRESS);
    }
    if count > 255 {
        return Some(REFUSED_DATA_LONG);
    }
    match frame_type {
        ACK | BACK if count < 2 => Some(REFUSED_DATA_LENGTH),
        STX | ACK | BACK => None,
        _ => Some(REFUSED_NO_DELIMITER),
    }
}

#[inline(never)]
pub fn read(bytes: &[u8], fields: &mut Fields) -> u32 {
    match parse(bytes) {
        Ok(found) => {
            *fields = found;
            TAKEN
        }
        Err(refusal) => refusal,
    }
}

fn parse(bytes: &[u8]) -> Result<Fields, u32> {
    let preamble = bytes.iter().take_while(|&&byte| byte == PREAMBLE).count();
    if preamble < 2 {
        return Err(REFUSED_FEW_PREAMBLES);
    }
    let body = &bytes[preamble..];
    let delimiter = *body.first().ok_or(REFUSED_ENDS_EARLY)?;
    let (frame_type, long_address, expansion) =
        delimiter_fields(delimiter).ok_or(REFUSED_NO_DELIMITER)?;
    let address_end = if long_address { 6 } else { 2 };
    let header = address_end + expansion + 2;
    let Some(&[command, count]) = body.get(header - 2..header) else {
        return Err(REFUSED_ENDS_EARLY);
    };
    let check_byte_at = header + usize::from(count);
    let check_byte = *body.get(check_byte_at).ok_or(REFUSED_ENDS_EARLY)?;
    let checked = &body[..check_byte_at];
    if frame_type != STX && count < 2 || exclusive_or(checked) != check_byte {
        return Err(REFUSED_UNSOUND);
    }
    Ok([
        preamble as u64,
        frame_type.into(),
        long_address.into(),
        (checked[1] >> 7).into(),
        (checked[1] >> 6 & 1).into(),
        address(&checked[1..address_end]),
        expansion as u64,
        command.into(),
        (preamble + header) as u64,
        count.into(),
        (preamble + check_byte_at + 1) as u64,
    ])
}

/// Type, long address and number of expansion bytes.
fn delimiter_fields(delimiter: u8) -> Option<(u8, bool, usize)> {
    let frame_type = delimiter & 0x07;
    let known = delimiter & 0x18 == 0 && matches!(frame_type, STX | ACK | BACK);
    let expansion = usize::from(delimiter >> 5 & 0x03);
    known.then_some((frame_type, delimiter & LONG != 0, expansion))
}

/// The 6 or 38 bits behind master bit and burst flag.
fn address(bytes: &[u8]) -> u64 {
    let first = u64::from(bytes[0] & 0x3F);
    bytes[1..]
        .iter()
        .fold(first, |number, &byte| number << 8 | u64::from(byte))
}

pub fn exclusive_or(bytes: &[u8]) -> u8 {
    bytes.iter().fold(0, |sum, &byte| sum ^ byte)
}
