//! The Rust original, unchanged.
use crate::judged::{Form, Header};
use crate::said::{Envelope, Outcome, Parsed};
use cassandra_protocol::compression::Compression;
use cassandra_protocol::error::{Error, Result as CrateResult};
use cassandra_protocol::frame::frame_decoder::{
    FrameDecoder, Lz4FrameDecoder, UncompressedFrameDecoder,
};
use cassandra_protocol::frame::frame_encoder::{FrameEncoder, UncompressedFrameEncoder};
use cassandra_protocol::frame::message_request::RequestBody;
use cassandra_protocol::frame::{
    CheckEnvelopeSizeError, Direction, Flags, FromCursor, Opcode, ParseEnvelopeError, Serialize,
    Version,
};
use cassandra_protocol::types::{
    from_cursor_string_list, serialize_str, CBytes, CBytesShort, CInt, CIntShort, CLong,
};
use std::convert::TryFrom;
use std::io::Cursor;
use std::panic::{catch_unwind, AssertUnwindSafe};

/// Whether this build has overflow checks and debug assertions.
pub const CHECKED: bool = cfg!(debug_assertions);

type Theirs = cassandra_protocol::frame::Envelope;

fn guarded<T>(call: impl FnOnce() -> Outcome<T>) -> Outcome<T> {
    catch_unwind(AssertUnwindSafe(call)).unwrap_or(Outcome::Panicked)
}

fn plain(e: Theirs) -> Envelope {
    Envelope {
        version: u8::from(e.version),
        is_response: e.direction == Direction::Response,
        flags: e.flags.bits(),
        stream: e.stream_id,
        opcode: u8::from(e.opcode),
        id: e.tracing_id.map(|id| id.into_bytes()),
        warnings: e.warnings.into_iter().map(String::into_bytes).collect(),
        body: e.body,
    }
}

/// 12 where bytes are missing, 13 where they are no text.
fn number_of_error(error: &Error) -> u8 {
    match error {
        Error::Io(_) => 12,
        Error::Utf8(_) | Error::FromUtf8(_) => 13,
        _ => 0,
    }
}

/// The decoder hands an envelope's error on as a text.
fn number_of_text(text: &str) -> u8 {
    let text = text.strip_prefix("General error: ").unwrap_or(text);
    let known = [
        ("Header CRC mismatch", 2),
        ("Payload CRC mismatch", 5),
        ("Found self-contained frame", 6),
        ("Unsupported version", 9),
        ("Unsupported opcode", 10),
        ("Invalid warnings: IO error", 12),
        ("Invalid warnings: Utf8 error", 13),
    ];
    known
        .iter()
        .find(|(start, _)| text.starts_with(start))
        .map_or(0, |(_, number)| *number)
}

pub fn crc24(bytes: &[u8]) -> u32 {
    cassandra_protocol::crc::crc24(bytes) as u32
}

pub fn crc32(bytes: &[u8]) -> u32 {
    cassandra_protocol::crc::crc32(bytes)
}

pub fn parse(bytes: &[u8]) -> Parsed {
    guarded(|| match Theirs::from_buffer(bytes, Compression::None) {
        Ok(parsed) => Outcome::Gave(Some((parsed.envelope_len, plain(parsed.envelope)))),
        Err(ParseEnvelopeError::NotEnoughBytes) => Outcome::Gave(None),
        Err(ParseEnvelopeError::UnsupportedVersion(_)) => Outcome::Refused(9),
        Err(ParseEnvelopeError::UnsupportedOpcode(_)) => Outcome::Refused(10),
        Err(ParseEnvelopeError::InvalidWarnings(error)) => {
            Outcome::Refused(number_of_error(&error))
        }
        Err(_) => Outcome::Refused(0),
    })
}

/// The whole length, and 0 where the envelope is not complete.
pub fn size(bytes: &[u8]) -> Outcome<usize> {
    guarded(|| match Theirs::check_envelope_size(bytes) {
        Ok(n) => Outcome::Gave(n),
        Err(CheckEnvelopeSizeError::NotEnoughBytes) => Outcome::Gave(0),
        Err(CheckEnvelopeSizeError::UnsupportedVersion(_)) => Outcome::Refused(9),
        Err(_) => Outcome::Refused(0),
    })
}

pub enum Decoder {
    Short(UncompressedFrameDecoder),
    Long(Lz4FrameDecoder),
}

impl Decoder {
    pub fn new(form: Form) -> Self {
        match form {
            Form::Short => Decoder::Short(Default::default()),
            Form::Long => Decoder::Long(Default::default()),
        }
    }

    pub fn feed(&mut self, piece: &[u8]) -> Outcome<Vec<Envelope>> {
        let mut data = piece.to_vec();
        let given = |answer: CrateResult<Vec<Theirs>>| match answer {
            Ok(all) => Outcome::Gave(all.into_iter().map(plain).collect()),
            Err(error) => Outcome::Refused(number_of_text(&error.to_string())),
        };
        guarded(|| match self {
            Decoder::Short(decoder) => given(decoder.consume(&mut data, Compression::None)),
            Decoder::Long(decoder) => given(decoder.consume(&mut data, Compression::None)),
        })
    }
}

/// How many numbers the list of this name has in a text that shows the decoder.
fn listed(text: &str, name: &str) -> usize {
    let from = text.find(name).map_or(text.len(), |at| at + name.len());
    let list = text[from..].split(']').next().unwrap_or("");
    list.split(',').filter(|word| !word.is_empty()).count()
}

impl Decoder {
    /// The bytes of an unfinished segment and those of a run, which the Rust shows only as a text.
    pub fn held(&self) -> usize {
        let text = match self {
            Decoder::Short(decoder) => format!("{decoder:?}"),
            Decoder::Long(decoder) => format!("{decoder:?}"),
        };
        listed(&text, "frame_buffer: [") + listed(&text, "payload_buffer: [")
    }
}

/// 15 where it has no bytes for the fields; the types of the Rust know no other version, opcode or text.
pub fn encode(
    header: Header,
    id: Option<[u8; 16]>,
    warnings: &[String],
    body: &[u8],
) -> Outcome<Vec<u8>> {
    let (Ok(version), Ok(opcode)) = (
        Version::try_from(header.version),
        Opcode::try_from(header.opcode),
    ) else {
        return Outcome::Refused(15);
    };
    let direction = if header.is_response {
        Direction::Response
    } else {
        Direction::Request
    };
    let flags = Flags::from_bits_retain(header.flags);
    guarded(|| {
        let id = id.map(uuid::Uuid::from_bytes);
        let envelope = Theirs::new(
            version,
            direction,
            flags,
            opcode,
            header.stream,
            body.to_vec(),
            id,
            warnings.to_vec(),
        );
        envelope
            .encode_with(Compression::None)
            .map_or(Outcome::Refused(15), Outcome::Gave)
    })
}

/// The writer of short segments.
#[derive(Default)]
pub struct Encoder(UncompressedFrameEncoder);

impl Encoder {
    pub fn can_fit(&self, len: usize) -> bool {
        self.0.can_fit(len)
    }

    pub fn has_envelopes(&self) -> bool {
        self.0.has_envelopes()
    }

    pub fn reset(&mut self) {
        self.0.reset();
    }

    pub fn add(&mut self, envelope: &[u8]) {
        self.0.add_envelope(envelope.to_vec());
    }

    pub fn finish(&mut self) -> Outcome<Vec<u8>> {
        guarded(|| Outcome::Gave(self.0.finalize_self_contained().to_vec()))
    }

    /// How many bytes the piece took, and the segment.
    pub fn piece(&mut self, envelope: &[u8]) -> Outcome<(usize, Vec<u8>)> {
        guarded(|| {
            let (taken, segment) = self.0.finalize_non_self_contained(envelope);
            Outcome::Gave((taken, segment.to_vec()))
        })
    }
}

/// A value of a notation and where it ends.
fn noted<T>(
    bytes: &[u8],
    read: impl FnOnce(&mut Cursor<&[u8]>) -> CrateResult<T>,
) -> Outcome<(T, usize)> {
    guarded(|| {
        let mut cursor = Cursor::new(bytes);
        match read(&mut cursor) {
            Ok(value) => Outcome::Gave((value, cursor.position() as usize)),
            Err(error) => Outcome::Refused(number_of_error(&error)),
        }
    })
}

pub fn short(bytes: &[u8]) -> Outcome<(i16, usize)> {
    noted(bytes, |cursor| CIntShort::from_cursor(cursor, Version::V5))
}

pub fn int(bytes: &[u8]) -> Outcome<(i32, usize)> {
    noted(bytes, |cursor| CInt::from_cursor(cursor, Version::V5))
}

pub fn long(bytes: &[u8]) -> Outcome<(i64, usize)> {
    noted(bytes, |cursor| CLong::from_cursor(cursor, Version::V5))
}

pub fn string_list(bytes: &[u8]) -> Outcome<(Vec<Vec<u8>>, usize)> {
    noted(bytes, |cursor| {
        from_cursor_string_list(cursor)
            .map(|list| list.into_iter().map(String::into_bytes).collect())
    })
}

pub fn bytes(bytes: &[u8]) -> Outcome<(Option<Vec<u8>>, usize)> {
    noted(bytes, |cursor| {
        CBytes::from_cursor(cursor, Version::V5).map(CBytes::into_bytes)
    })
}

pub fn short_bytes(bytes: &[u8]) -> Outcome<(Option<Vec<u8>>, usize)> {
    noted(bytes, |cursor| {
        CBytesShort::from_cursor(cursor, Version::V5).map(CBytesShort::into_bytes)
    })
}

/// Only a QUERY body gives access to this one: the text, then consistency ONE and no flags.
pub fn long_string(bytes: &[u8]) -> Outcome<Vec<u8>> {
    guarded(
        || match RequestBody::try_from(bytes, Opcode::Query, Version::V5) {
            Ok(RequestBody::Query(query)) => Outcome::Gave(query.query.into_bytes()),
            Ok(_) => Outcome::Refused(0),
            Err(error) => Outcome::Refused(number_of_error(&error)),
        },
    )
}

pub const AFTER_QUERY: [u8; 6] = [0, 1, 0, 0, 0, 0];

fn serialized(write: impl FnOnce(&mut Cursor<&mut Vec<u8>>)) -> Vec<u8> {
    let mut out = vec![];
    write(&mut Cursor::new(&mut out));
    out
}

pub fn write_string(text: &str) -> Vec<u8> {
    serialized(|cursor| serialize_str(cursor, text, Version::V5))
}

pub fn write_bytes(value: Option<&[u8]>) -> Vec<u8> {
    let value = value.map_or_else(CBytes::new_null, |bytes| CBytes::new(bytes.to_vec()));
    serialized(|cursor| value.serialize(cursor, Version::V5))
}

pub fn write_short_bytes(value: &[u8]) -> Vec<u8> {
    serialized(|cursor| CBytesShort::new(value.to_vec()).serialize(cursor, Version::V5))
}

pub fn write_int(value: i32) -> Vec<u8> {
    cassandra_protocol::types::to_int(value)
}

pub fn write_short(value: u16) -> Vec<u8> {
    cassandra_protocol::types::to_u_short(value)
}

pub fn write_long(value: i64) -> Vec<u8> {
    cassandra_protocol::types::to_bigint(value)
}
