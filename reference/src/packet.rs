//! The packet frame (RFC 1994) and the six packets: readers and writers of their fields.

/// Code of a Challenge.
pub const CHALLENGE: u8 = 1;
/// Code of a Response.
pub const RESPONSE: u8 = 2;
/// Code of a Success.
pub const SUCCESS: u8 = 3;
/// Code of a Failure.
pub const FAILURE: u8 = 4;
/// Code of a Change Password packet, version 1.
pub const CHANGE_1: u8 = 5;
/// Code of a Change Password packet, version 2.
pub const CHANGE: u8 = 6;

/// Length of a Failure that the box writes; the least reply buffer.
pub const FAILURE_LENGTH: usize = 17;
/// Length of a Change Password packet, version 1.
pub const CHANGE_1_LENGTH: usize = 72;
/// Length of a Change Password packet, version 2.
pub const CHANGE_LENGTH: usize = 1118;

/// A packet without its padding.
#[derive(Clone, Copy, Debug, PartialEq, Eq)]
pub struct Frame<'a> {
    /// The code.
    pub code: u8,
    /// The identifier.
    pub id: u8,
    /// What stands between the four first octets and the end that Length gives.
    pub data: &'a [u8],
}

impl Frame<'_> {
    /// The value of the Length field.
    pub fn length(&self) -> usize {
        4 + self.data.len()
    }
}

/// Reads the frame: refusal 3 for fewer than 4 octets and for a Length under 4 or over what was
/// lent.
pub fn frame(packet: &[u8]) -> Result<Frame<'_>, u8> {
    if packet.len() < 4 {
        return Err(3);
    }
    let length = usize::from(packet[2]) * 256 + usize::from(packet[3]);
    if length < 4 || length > packet.len() {
        return Err(3);
    }
    Ok(Frame {
        code: packet[0],
        id: packet[1],
        data: &packet[4..length],
    })
}

/// Writes a frame around data of at most 65,531 octets.
fn framed(code: u8, id: u8, data: &[u8]) -> Vec<u8> {
    let length = 4 + data.len();
    let mut packet = vec![code, id, (length / 256) as u8, (length % 256) as u8];
    packet.extend_from_slice(data);
    packet
}

/// Puts a packet at the front of a buffer that has room for it; the later octets stay.
pub fn put(packet: &[u8], buffer: &mut [u8]) -> usize {
    buffer[..packet.len()].copy_from_slice(packet);
    packet.len()
}

/// The fields of a Response.
#[derive(Clone, Copy, Debug, PartialEq, Eq)]
pub struct ResponseFields<'a> {
    /// The LAN Manager response.
    pub lm: [u8; 24],
    /// The Windows NT response.
    pub nt: [u8; 24],
    /// Whether the NT response is to be used.
    pub flag: bool,
    /// The name, 1 to 256 octets.
    pub name: &'a [u8],
}

/// Reads the data of a Response: refusal 6 for Length or size, then 7 for the flag.
pub fn read_response<'a>(frame: &Frame<'a>) -> Result<ResponseFields<'a>, u8> {
    let length = frame.length();
    if !(55..=310).contains(&length) || frame.data[0] != 49 {
        return Err(6);
    }
    if frame.data[49] > 1 {
        return Err(7);
    }
    Ok(ResponseFields {
        lm: field(frame.data, 1),
        nt: field(frame.data, 25),
        flag: frame.data[49] == 1,
        name: &frame.data[50..],
    })
}

/// The fields of a version 2 change.
#[derive(Clone, Copy, Debug, PartialEq, Eq)]
pub struct ChangeFields {
    /// The new password, sealed under the old NT hash.
    pub nt_block: [u8; 516],
    /// The old NT hash under the new NT hash.
    pub nt_old_under_new: [u8; 16],
    /// The new password, sealed under the old LM hash; ignored.
    pub lm_block: [u8; 516],
    /// The old LM hash under the new NT hash; ignored.
    pub lm_old_under_new: [u8; 16],
    /// The LAN Manager response; ignored.
    pub lm_response: [u8; 24],
    /// The Windows NT response.
    pub nt_response: [u8; 24],
    /// The flags, as a number.
    pub flags: u16,
}

/// Reads the data of a version 2 change: refusal 6 for the Length, then 7 for flag bits 2 to 15.
pub fn read_change(frame: &Frame<'_>) -> Result<ChangeFields, u8> {
    if frame.length() != CHANGE_LENGTH {
        return Err(6);
    }
    let data = frame.data;
    let flags = u16::from(data[1112]) * 256 + u16::from(data[1113]);
    if flags / 4 != 0 {
        return Err(7);
    }
    Ok(ChangeFields {
        nt_block: field(data, 0),
        nt_old_under_new: field(data, 516),
        lm_block: field(data, 532),
        lm_old_under_new: field(data, 1048),
        lm_response: field(data, 1064),
        nt_response: field(data, 1088),
        flags,
    })
}

/// The fields of a version 1 change (RFC 2433, section 9), in the order of its list.
#[derive(Clone, Copy, Debug, PartialEq, Eq)]
pub struct Change1Fields {
    /// The old LAN Manager hash under the challenge.
    pub lm_old: [u8; 16],
    /// The new LAN Manager hash under the challenge.
    pub lm_new: [u8; 16],
    /// The old NT hash under the challenge.
    pub nt_old: [u8; 16],
    /// The new NT hash under the challenge.
    pub nt_new: [u8; 16],
    /// The length of the new password in its LAN Manager form.
    pub length: u16,
    /// The flags, as a number.
    pub flags: u16,
}

/// Reads the data of a version 1 change: refusal 6 for the Length, then 7 for flag bits 1 to 15.
pub fn read_change_1(frame: &Frame<'_>) -> Result<Change1Fields, u8> {
    if frame.length() != CHANGE_1_LENGTH {
        return Err(6);
    }
    let data = frame.data;
    let flags = u16::from_be_bytes(field(data, 66));
    if flags / 2 != 0 {
        return Err(7);
    }
    Ok(Change1Fields {
        lm_old: field(data, 0),
        lm_new: field(data, 16),
        nt_old: field(data, 32),
        nt_new: field(data, 48),
        length: u16::from_be_bytes(field(data, 64)),
        flags,
    })
}

/// Reads the data of a Challenge: refusal 11 where it is cut short or its size is not 8. A name
/// behind the value is ignored.
pub fn read_challenge(frame: &Frame<'_>) -> Result<[u8; 8], u8> {
    if frame.data.len() < 9 || frame.data[0] != 8 {
        return Err(11);
    }
    Ok(field(frame.data, 1))
}

/// A Challenge with no name.
pub fn challenge(id: u8, value: &[u8; 8]) -> Vec<u8> {
    let mut data = vec![8];
    data.extend_from_slice(value);
    framed(CHALLENGE, id, &data)
}

/// A Success with no message.
pub fn success(id: u8) -> Vec<u8> {
    framed(SUCCESS, id, &[])
}

/// A Failure with the message `E=eee R=r V=v`.
pub fn failure(id: u8, e: u16, r: u8, v: u8) -> Vec<u8> {
    framed(FAILURE, id, format!("E={e} R={r} V={v}").as_bytes())
}

/// A Response.
pub fn response(id: u8, lm: &[u8; 24], nt: &[u8; 24], flag: u8, name: &[u8]) -> Vec<u8> {
    let mut data = vec![49];
    data.extend_from_slice(lm);
    data.extend_from_slice(nt);
    data.push(flag);
    data.extend_from_slice(name);
    framed(RESPONSE, id, &data)
}

/// A version 2 change.
pub fn change(id: u8, fields: &ChangeFields) -> Vec<u8> {
    let mut data = Vec::new();
    data.extend_from_slice(&fields.nt_block);
    data.extend_from_slice(&fields.nt_old_under_new);
    data.extend_from_slice(&fields.lm_block);
    data.extend_from_slice(&fields.lm_old_under_new);
    data.extend_from_slice(&fields.lm_response);
    data.extend_from_slice(&fields.nt_response);
    data.extend_from_slice(&fields.flags.to_be_bytes());
    framed(CHANGE, id, &data)
}

/// A version 1 change: "the length is written as the flags are", most significant octet first.
pub fn change_1(id: u8, fields: &Change1Fields) -> Vec<u8> {
    let mut data = Vec::new();
    for hash in [fields.lm_old, fields.lm_new, fields.nt_old, fields.nt_new] {
        data.extend_from_slice(&hash);
    }
    data.extend_from_slice(&fields.length.to_be_bytes());
    data.extend_from_slice(&fields.flags.to_be_bytes());
    framed(CHANGE_1, id, &data)
}

/// The name of a packet that by itself passes the checks of 3, 4 (code 2 awaited), 6 and 7.
fn response_name(packet: &[u8]) -> Option<&[u8]> {
    let frame = frame(packet).ok()?;
    if frame.code != RESPONSE {
        return None;
    }
    Some(read_response(&frame).ok()?.name)
}

/// The domain for the lookup: the part of the name before its first backslash, or the whole home
/// domain where there is none; empty for a packet that is no Response.
pub fn domain<'a>(packet: &'a [u8], home: &'a [u8]) -> &'a [u8] {
    match response_name(packet) {
        None => &packet[..0],
        Some(name) => match name.iter().position(|octet| *octet == b'\\') {
            Some(at) => &name[..at],
            None => home,
        },
    }
}

/// The account for the lookup: the name behind its first backslash, or the whole name; empty for
/// a packet that is no Response.
pub fn account(packet: &[u8]) -> &[u8] {
    match response_name(packet) {
        None => &packet[..0],
        Some(name) => match name.iter().position(|octet| *octet == b'\\') {
            Some(at) => &name[at + 1..],
            None => name,
        },
    }
}

fn field<const N: usize>(data: &[u8], from: usize) -> [u8; N] {
    let mut out = [0u8; N];
    out.copy_from_slice(&data[from..from + N]);
    out
}

#[cfg(test)]
mod tests {
    use super::*;

    fn resp(name: &[u8]) -> Vec<u8> {
        response(7, &[0; 24], &[1; 24], 1, name)
    }

    #[test]
    fn frames() {
        assert_eq!(frame(&[]), Err(3));
        assert_eq!(frame(&[1, 2, 0]), Err(3));
        assert_eq!(frame(&[1, 2, 0, 3, 9]), Err(3));
        assert_eq!(frame(&[1, 2, 0, 5]), Err(3));
        assert_eq!(frame(&[1, 2, 1, 0]), Err(3));
        assert_eq!(frame(&[1, 2, 0, 4, 9]).unwrap().data, &[] as &[u8]);
        assert_eq!(frame(&[1, 2, 0, 5, 9, 8]).unwrap().data, &[9]);
    }

    #[test]
    fn written_octets() {
        assert_eq!(
            challenge(7, &[1, 2, 3, 4, 5, 6, 7, 8]),
            [1, 7, 0, 13, 8, 1, 2, 3, 4, 5, 6, 7, 8]
        );
        assert_eq!(success(255), [3, 255, 0, 4]);
        assert_eq!(failure(9, 691, 1, 2), b"\x04\x09\x00\x11E=691 R=1 V=2");
        assert_eq!(resp(&[b'u'; 256])[..5], [2, 7, 1, 0x36, 0x31]);
    }

    #[test]
    fn response_lengths() {
        for (size, expected) in [(1, Ok(())), (256, Ok(())), (257, Err(6))] {
            let packet = resp(&vec![b'u'; size]);
            assert_eq!(
                read_response(&frame(&packet).unwrap()).map(|_| ()),
                expected
            );
        }
        let packet = resp(b"");
        assert_eq!(packet.len(), 54);
        assert_eq!(read_response(&frame(&packet).unwrap()), Err(6));
        assert_eq!(read_response(&frame(&[2, 7, 0, 4]).unwrap()), Err(6));
        let mut packet = resp(b"u");
        packet[4] = 48;
        packet[53] = 2;
        assert_eq!(read_response(&frame(&packet).unwrap()), Err(6));
        packet[4] = 49;
        assert_eq!(read_response(&frame(&packet).unwrap()), Err(7));
    }

    #[test]
    fn names() {
        let parts = |packet: &[u8]| (domain(packet, b"HOME").to_vec(), account(packet).to_vec());
        let pair = |a: &[u8], b: &[u8]| (a.to_vec(), b.to_vec());
        assert_eq!(parts(&resp(b"A\\B\\C")), pair(b"A", b"B\\C"));
        assert_eq!(parts(&resp(b"\\u")), pair(b"", b"u"));
        assert_eq!(parts(&resp(b"DOM\\")), pair(b"DOM", b""));
        assert_eq!(parts(&resp(b"\\")), pair(b"", b""));
        let mut padded = resp(b"u");
        padded.extend_from_slice(b"\\x");
        assert_eq!(parts(&padded), pair(b"HOME", b"u"));
        assert_eq!(parts(&[2, 7, 0]), pair(b"", b""));
        for (place, value) in [(0, 6), (4, 0x30), (53, 2), (53, 255)] {
            let mut packet = resp(b"u");
            packet[place] = value;
            assert_eq!(parts(&packet), pair(b"", b""), "{place}");
        }
        assert_eq!(parts(&resp(&[b'u'; 257])), pair(b"", b""));
    }
}
