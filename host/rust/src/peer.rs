//! The peer: it reads Challenge, Success and Failure, and writes Response and change.

use crate::{sys, Password, Refusal};

/// All that the peer keeps from one packet to the next: what it sent last, and the identifier and
/// the challenge of the next packet. A packet that was written counts as sent. It may be stored and
/// continued later.
#[derive(Clone, Copy, Debug, PartialEq, Eq)]
pub struct Peer([u8; sys::PEER_SIZE]);

/// What a reply calls for.
#[derive(Clone, Copy, Debug, PartialEq, Eq)]
pub enum Call {
    /// Nothing: it is Success.
    Nothing,
    /// Another Response.
    Response,
    /// A version 2 change of the password.
    Change,
    /// A version 1 change of the password, which whoever listens on the line can decrypt.
    ChangeVersion1,
    /// The end: hang up.
    End,
}

/// What a reply says.
#[derive(Clone, Copy, Debug, PartialEq, Eq)]
pub struct Reading {
    /// What it calls for.
    pub call: Call,
    /// The reason: 0 for Success, else the Failure's E, any number. [`Reason::of`] knows some.
    ///
    /// [`Reason::of`]: crate::Reason::of
    pub reason: u64,
}

impl Peer {
    /// Reads a Challenge: the peer that is to answer it. Before it has written a packet, every
    /// reply is refused.
    pub fn read_challenge(packet: &[u8]) -> Result<Peer, Refusal> {
        let mut peer = [0; sys::PEER_SIZE];
        Refusal::check(sys::read_challenge(packet, &mut peer))?;
        Ok(Peer(peer))
    }

    /// Writes the Response by a password, with a name of 1 to 256 bytes, at the front of `out`.
    /// Gives its size. A refusal changes nothing.
    pub fn write_response(
        &mut self,
        password: &Password,
        name: &[u8],
        out: &mut [u8],
    ) -> Result<usize, Refusal> {
        let number = sys::write_response(&mut self.0, password.as_bytes(), name, out);
        Refusal::check(number)?;
        Ok(sys::packet_length(out))
    }

    /// Writes the version 2 change from an old to a new password at the front of `out`. The filler
    /// hides the new password's length: pass bytes that are unpredictable, from a CSPRNG. Gives the
    /// size. A refusal changes nothing.
    pub fn write_change(
        &mut self,
        old: &Password,
        new: &Password,
        filler: &[u8; sys::FILLER_SIZE],
        out: &mut [u8],
    ) -> Result<usize, Refusal> {
        let (old, new) = (old.as_bytes(), new.as_bytes());
        Refusal::check(sys::write_change(&mut self.0, old, new, filler, out))?;
        Ok(sys::packet_length(out))
    }

    /// Writes the version 1 change from an old to a new password at the front of `out`, only where
    /// a reply calls for it. Whoever has heard the Challenge decrypts both hashes from it; a
    /// program that would rather give up hangs up instead. Gives the size. A refusal changes
    /// nothing.
    pub fn write_change_1(
        &mut self,
        old: &Password,
        new: &Password,
        out: &mut [u8],
    ) -> Result<usize, Refusal> {
        let (old, new) = (old.as_bytes(), new.as_bytes());
        Refusal::check(sys::write_change_1(&mut self.0, old, new, out))?;
        Ok(sys::packet_length(out))
    }

    /// Reads the reply to the packet that was written last. The next packet is to be written only
    /// if it calls for another Response or a change. A reply may be read twice: it says the same
    /// and gives the same peer. A refusal changes nothing.
    pub fn read_reply(&mut self, packet: &[u8]) -> Result<Reading, Refusal> {
        let (mut next, mut call, mut reason) = (self.0, 0, 0);
        Refusal::check(sys::read_reply(&mut next, packet, &mut call, &mut reason))?;
        let call = match call {
            sys::CALL_NONE => Call::Nothing,
            sys::CALL_RESPONSE => Call::Response,
            sys::CALL_CHANGE => Call::Change,
            sys::CALL_CHANGE_1 => Call::ChangeVersion1,
            sys::CALL_END => Call::End,
            other => return Err(Refusal::Unexpected(other)),
        };
        self.0 = next;
        Ok(Reading { call, reason })
    }

    /// The bytes to be stored.
    pub fn as_bytes(&self) -> &[u8; sys::PEER_SIZE] {
        &self.0
    }

    /// The peer of stored bytes. Bytes that no peer has are refused as [`Refusal::BadArgument`].
    pub fn from_bytes(bytes: &[u8]) -> Result<Peer, Refusal> {
        let peer = Peer(bytes.try_into().map_err(|_| Refusal::BadArgument)?);
        // A packet of no bytes is refused by each peer that there is, and changes none.
        match { peer }.read_reply(&[]) {
            Err(Refusal::Frame) => Ok(peer),
            Err(refusal) => Err(refusal),
            Ok(_) => Err(Refusal::Unexpected(sys::OK)),
        }
    }
}
