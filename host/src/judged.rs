//! The library's calls in safe Rust, over the static library `judged`: what tests and the comparison with the Rust original call. The words that go
//! over are told in `crates/judged/src`.

mod exported {
    // A slice passes as its first element's place and its length. Nothing compares these lines with the Rattle source.
    extern "C" {
        pub fn judged_crc24(bytes: *const u8, len: usize) -> u32;
        pub fn judged_crc32(bytes: *const u8, len: usize) -> u32;
        pub fn judged_size(bytes: *const u8, len: usize) -> i64;
        pub fn judged_is_utf8(bytes: *const u8, len: usize) -> bool;
        pub fn judged_parse(bytes: *const u8, len: usize, said: *mut usize, words: usize);
        pub fn judged_body(
            bytes: *const u8,
            len: usize,
            said: *const usize,
            words: usize,
            out: *mut u8,
            room: usize,
        ) -> usize;
        pub fn judged_tracing_id(
            bytes: *const u8,
            len: usize,
            said: *const usize,
            words: usize,
            out: *mut u8,
            room: usize,
        ) -> usize;
        pub fn judged_stream_part(
            which: usize,
            segment: *const u8,
            segment_len: usize,
            reassembly: *const u8,
            reassembly_len: usize,
            start: usize,
            len: usize,
            out: *mut u8,
            room: usize,
        ) -> usize;
        pub fn judged_held(state: *const usize, words: usize) -> usize;
        pub fn judged_read(
            state: *mut usize,
            words: usize,
            segment: *mut u8,
            segment_len: usize,
            reassembly: *mut u8,
            reassembly_len: usize,
            piece: *const u8,
            piece_len: usize,
            said: *mut usize,
            said_words: usize,
        ) -> usize;
        pub fn judged_notation(
            kind: usize,
            bytes: *const u8,
            len: usize,
            at: usize,
            said: *mut usize,
            words: usize,
        );
        pub fn judged_next(
            bytes: *const u8,
            len: usize,
            left: u16,
            at: usize,
            said: *mut usize,
            words: usize,
        );
        pub fn judged_part(
            bytes: *const u8,
            bytes_len: usize,
            start: usize,
            len: usize,
            out: *mut u8,
            room: usize,
        ) -> usize;
        pub fn judged_write_number(
            kind: usize,
            out: *mut u8,
            room: usize,
            at: usize,
            bits: u64,
            said: *mut usize,
            words: usize,
        );
        pub fn judged_write_bytes(
            kind: usize,
            out: *mut u8,
            room: usize,
            at: usize,
            bytes: *const u8,
            len: usize,
            said: *mut usize,
            words: usize,
        );
        pub fn judged_write_list(
            out: *mut u8,
            room: usize,
            at: usize,
            text: *const u8,
            len: usize,
            lens: *const usize,
            count: usize,
            said: *mut usize,
            words: usize,
        );
        pub fn judged_write_envelope(
            out: *mut u8,
            room: usize,
            fields: *const usize,
            field_words: usize,
            id: *const u8,
            id_len: usize,
            text: *const u8,
            text_len: usize,
            lens: *const usize,
            count: usize,
            body: *const u8,
            body_len: usize,
            said: *mut usize,
            words: usize,
        );
        pub fn judged_can_fit(state: *const usize, words: usize, len: usize) -> bool;
        pub fn judged_has_envelopes(state: *const usize, words: usize) -> bool;
        pub fn judged_reset(state: *mut usize, words: usize);
        pub fn judged_add(
            state: *mut usize,
            words: usize,
            out: *mut u8,
            room: usize,
            envelope: *const u8,
            len: usize,
            said: *mut usize,
            said_words: usize,
        );
        pub fn judged_finish(
            state: *mut usize,
            words: usize,
            out: *mut u8,
            room: usize,
            said: *mut usize,
            said_words: usize,
        );
        pub fn judged_piece(
            state: *mut usize,
            words: usize,
            out: *mut u8,
            room: usize,
            envelope: *const u8,
            len: usize,
            said: *mut usize,
            said_words: usize,
        );
        pub fn judged_header(
            long: usize,
            bytes: *const u8,
            len: usize,
            said: *mut usize,
            words: usize,
        );
    }
}

use exported::*;

// SAFETY of every block below: the functions only read the shared slices and only write the exclusive ones, within their lengths, for any contents; that
// is proved of each, and none asks anything of its arguments.

#[derive(Clone, Copy, Debug, PartialEq, Eq)]
pub struct Place {
    pub start: usize,
    pub len: usize,
}

/// A list of strings that is being walked: how many are left, and where the next begins.
#[derive(Clone, Copy, Debug, PartialEq, Eq)]
pub struct Walk {
    pub left: u16,
    pub at: usize,
}

/// An envelope as it was read. Places count from its first byte.
#[derive(Clone, Copy, Debug, PartialEq, Eq)]
pub struct Reading {
    pub size: usize,
    pub version: u8,
    pub is_response: bool,
    pub flags: u8,
    pub stream: i16,
    pub opcode: u8,
    pub traced: bool,
    pub warnings: Walk,
    pub body: Place,
}

#[derive(Clone, Copy, Debug, PartialEq, Eq)]
pub enum Parsed {
    Incomplete,
    Whole(Reading),
    Refused(u8),
}

type Said = [usize; 16];

/// The words that a call says.
fn said_by(call: impl FnOnce(*mut usize, usize)) -> Said {
    let mut said = [0; 16];
    call(said.as_mut_ptr(), said.len());
    said
}

/// A part that a call copies out, at most so long.
fn copied_by(room: usize, call: impl FnOnce(*mut u8, usize) -> usize) -> Vec<u8> {
    let mut out = vec![0; room];
    let n = call(out.as_mut_ptr(), out.len());
    out.truncate(n);
    out
}

fn reading(said: &Said) -> Reading {
    Reading {
        size: said[4],
        version: said[5] as u8,
        is_response: said[6] == 1,
        flags: said[7] as u8,
        stream: said[8] as u16 as i16,
        opcode: said[9] as u8,
        traced: said[10] == 1,
        warnings: Walk {
            left: said[11] as u16,
            at: said[12],
        },
        body: Place {
            start: said[13],
            len: said[14],
        },
    }
}

type PartCall =
    unsafe extern "C" fn(*const u8, usize, *const usize, usize, *mut u8, usize) -> usize;

impl Reading {
    fn words(&self) -> Said {
        let mut said = [0; 16];
        said[4] = self.size;
        said[10] = self.traced as usize;
        said[11] = self.warnings.left as usize;
        said[12] = self.warnings.at;
        said[13] = self.body.start;
        said[14] = self.body.len;
        said
    }

    fn part_by(&self, call: PartCall, bytes: &[u8]) -> Vec<u8> {
        let (b, words) = (bytes.as_ptr(), self.words());
        let call =
            |out, room| unsafe { call(b, bytes.len(), words.as_ptr(), words.len(), out, room) };
        copied_by(bytes.len(), call)
    }

    /// The body of this envelope, asked of these bytes.
    pub fn body(&self, bytes: &[u8]) -> Vec<u8> {
        self.part_by(judged_body, bytes)
    }

    pub fn tracing_id(&self, bytes: &[u8]) -> Vec<u8> {
        self.part_by(judged_tracing_id, bytes)
    }
}

pub fn crc24(bytes: &[u8]) -> u32 {
    unsafe { judged_crc24(bytes.as_ptr(), bytes.len()) }
}

pub fn crc32(bytes: &[u8]) -> u32 {
    unsafe { judged_crc32(bytes.as_ptr(), bytes.len()) }
}

pub fn size(bytes: &[u8]) -> i64 {
    unsafe { judged_size(bytes.as_ptr(), bytes.len()) }
}

pub fn is_utf8(bytes: &[u8]) -> bool {
    unsafe { judged_is_utf8(bytes.as_ptr(), bytes.len()) }
}

pub fn parse(bytes: &[u8]) -> Parsed {
    let said = said_by(|said, n| unsafe { judged_parse(bytes.as_ptr(), bytes.len(), said, n) });
    match said[0] {
        0 => Parsed::Incomplete,
        1 => Parsed::Whole(reading(&said)),
        _ => Parsed::Refused(said[1] as u8),
    }
}

#[derive(Clone, Copy, Debug, PartialEq, Eq)]
pub enum Form {
    Short,
    Long,
}

#[derive(Clone, Copy, Debug, PartialEq, Eq)]
pub enum Buffer {
    Segment,
    Reassembly,
}

#[derive(Clone, Copy, Debug, PartialEq, Eq)]
pub enum Phase {
    Header {
        filled: usize,
    },
    Rest {
        filled: usize,
        len: usize,
        self_contained: bool,
    },
    InSegment {
        len: usize,
        at: usize,
    },
    InReassembly {
        at: usize,
    },
    Stopped(u8),
}

#[derive(Clone, Copy, Debug, PartialEq, Eq)]
pub struct Reader {
    pub form: Form,
    pub segment_len: usize,
    pub reassembly_len: usize,
    pub pending: usize,
    pub phase: Phase,
}

#[derive(Clone, Copy, Debug, PartialEq, Eq)]
pub enum Answer {
    Envelope(Buffer, Place, Reading),
    Leftover(usize),
    More,
    Refused(u8),
}

#[derive(Clone, Copy, Debug, PartialEq, Eq)]
pub struct Heard {
    pub answer: Answer,
    pub taken: usize,
}

impl Reader {
    pub fn new(form: Form, segment_len: usize, reassembly_len: usize) -> Self {
        Reader {
            form,
            segment_len,
            reassembly_len,
            pending: 0,
            phase: Phase::Header { filled: 0 },
        }
    }

    fn words(&self) -> [usize; 8] {
        let (name, a, b, c) = match self.phase {
            Phase::Header { filled } => (0, filled, 0, 0),
            Phase::Rest {
                filled,
                len,
                self_contained,
            } => (1, filled, len, self_contained as usize),
            Phase::InSegment { len, at } => (2, len, at, 0),
            Phase::InReassembly { at } => (3, at, 0, 0),
            Phase::Stopped(number) => (4, number as usize, 0, 0),
        };
        [
            self.form as usize,
            self.segment_len,
            self.reassembly_len,
            self.pending,
            name,
            a,
            b,
            c,
        ]
    }

    fn from_words(words: [usize; 8]) -> Self {
        let [form, segment_len, reassembly_len, pending, name, a, b, c] = words;
        let phase = match name {
            0 => Phase::Header { filled: a },
            1 => Phase::Rest {
                filled: a,
                len: b,
                self_contained: c == 1,
            },
            2 => Phase::InSegment { len: a, at: b },
            3 => Phase::InReassembly { at: a },
            _ => Phase::Stopped(a as u8),
        };
        let form = if form == 1 { Form::Long } else { Form::Short };
        Reader {
            form,
            segment_len,
            reassembly_len,
            pending,
            phase,
        }
    }

    pub fn held(&self) -> usize {
        held(&self.words())
    }

    pub fn read(&mut self, segment: &mut [u8], reassembly: &mut [u8], piece: &[u8]) -> Heard {
        let mut words = self.words();
        let heard = read(&mut words, segment, reassembly, piece);
        *self = Reader::from_words(words);
        heard
    }
}

/// What is held of a state in words. Words that are no state hold nothing.
pub fn held(state: &[usize]) -> usize {
    unsafe { judged_held(state.as_ptr(), state.len()) }
}

/// A call on a state in words. Words that are no state are answered by refusal 1, and all stays as it was.
pub fn read(state: &mut [usize], segment: &mut [u8], reassembly: &mut [u8], piece: &[u8]) -> Heard {
    let mut said = [0; 16];
    let taken = unsafe {
        judged_read(
            state.as_mut_ptr(),
            state.len(),
            segment.as_mut_ptr(),
            segment.len(),
            reassembly.as_mut_ptr(),
            reassembly.len(),
            piece.as_ptr(),
            piece.len(),
            said.as_mut_ptr(),
            said.len(),
        )
    };
    let answer = match said[0] {
        0 => Answer::More,
        1 => Answer::Envelope(
            buffer(said[1]),
            Place {
                start: said[2],
                len: said[3],
            },
            reading(&said),
        ),
        2 => Answer::Refused(said[1] as u8),
        _ => Answer::Leftover(said[1]),
    };
    Heard { answer, taken }
}

fn buffer(word: usize) -> Buffer {
    if word == 0 {
        Buffer::Segment
    } else {
        Buffer::Reassembly
    }
}

/// What the reader hands back for a place.
pub fn stream_part(which: Buffer, segment: &[u8], reassembly: &[u8], place: Place) -> Vec<u8> {
    let (s, r) = (segment.as_ptr(), reassembly.as_ptr());
    let (s_len, r_len) = (segment.len(), reassembly.len());
    let (which, Place { start, len }) = (which as usize, place);
    let call =
        |out, room| unsafe { judged_stream_part(which, s, s_len, r, r_len, start, len, out, room) };
    copied_by(len.min(s_len.max(r_len)), call)
}

#[derive(Clone, Copy, Debug, PartialEq, Eq)]
pub enum Notation {
    Byte,
    Short,
    Int,
    Long,
    Uuid,
    ShortBytes,
    String,
    LongString,
    Bytes,
    StringList,
}

/// Numbers come as the bits that stand for them.
#[derive(Clone, Copy, Debug, PartialEq, Eq)]
pub enum Noted {
    Refused(u8),
    Value(u64),
    Part(Place),
    Null,
    List(Walk),
}

/// What stands there in this notation, and where it ends; a refusal ends at 0.
pub fn notation(kind: Notation, bytes: &[u8], at: usize) -> (Noted, usize) {
    let (b, len) = (bytes.as_ptr(), bytes.len());
    let said = said_by(|said, n| unsafe { judged_notation(kind as usize, b, len, at, said, n) });
    let noted = match said[0] {
        0 => Noted::Refused(said[1] as u8),
        1 => Noted::Value(said[1] as u64),
        2 => Noted::Part(Place {
            start: said[1],
            len: said[2],
        }),
        3 => Noted::Null,
        _ => Noted::List(Walk {
            left: said[1] as u16,
            at: said[2],
        }),
    };
    (noted, said[3])
}

#[derive(Clone, Copy, Debug, PartialEq, Eq)]
pub enum Walked {
    Text(Place, Walk),
    End(usize),
    Refused(u8),
}

fn walked(said: &Said) -> Walked {
    let place = Place {
        start: said[1],
        len: said[2],
    };
    let rest = Walk {
        left: said[4] as u16,
        at: said[3],
    };
    match said[0] {
        0 => Walked::Refused(said[1] as u8),
        2 => Walked::Text(place, rest),
        _ => Walked::End(said[3]),
    }
}

pub fn next_string(bytes: &[u8], walk: Walk) -> Walked {
    let (b, len) = (bytes.as_ptr(), bytes.len());
    walked(&said_by(|said, n| unsafe {
        judged_next(b, len, walk.left, walk.at, said, n)
    }))
}

pub fn part(bytes: &[u8], place: Place) -> Vec<u8> {
    let (b, n) = (bytes.as_ptr(), bytes.len());
    let call = |out, room| unsafe { judged_part(b, n, place.start, place.len, out, room) };
    copied_by(place.len.min(n), call)
}

/// Where the bytes written end, or the number of the refusal.
pub type Written = Result<usize, u8>;

fn written(said: &Said) -> Written {
    if said[0] == 1 {
        Ok(said[1])
    } else {
        Err(said[1] as u8)
    }
}

/// A [byte], [short], [int] or [long], from the lowest bits.
pub fn write_number(kind: Notation, out: &mut [u8], at: usize, bits: u64) -> Written {
    let (o, room, kind) = (out.as_mut_ptr(), out.len(), kind as usize);
    written(&said_by(|said, n| unsafe {
        judged_write_number(kind, o, room, at, bits, said, n)
    }))
}

/// A [uuid], which is 16 bytes, or [short bytes], [string], [long string] or [bytes].
pub fn write_bytes(kind: Notation, out: &mut [u8], at: usize, bytes: &[u8]) -> Written {
    let (o, room, kind) = (out.as_mut_ptr(), out.len(), kind as usize);
    let (b, len) = (bytes.as_ptr(), bytes.len());
    written(&said_by(|said, n| unsafe {
        judged_write_bytes(kind, o, room, at, b, len, said, n)
    }))
}

pub fn write_null(out: &mut [u8], at: usize) -> Written {
    write_bytes(Notation::StringList, out, at, &[])
}

pub fn write_list(out: &mut [u8], at: usize, text: &[u8], lens: &[usize]) -> Written {
    let (o, room) = (out.as_mut_ptr(), out.len());
    let (t, len, l, count) = (text.as_ptr(), text.len(), lens.as_ptr(), lens.len());
    written(&said_by(|said, n| unsafe {
        judged_write_list(o, room, at, t, len, l, count, said, n)
    }))
}

#[derive(Clone, Copy, Debug, PartialEq, Eq)]
pub struct Header {
    pub version: u8,
    pub is_response: bool,
    pub flags: u8,
    pub stream: i16,
    pub opcode: u8,
}

pub fn write_envelope(
    out: &mut [u8],
    header: Header,
    id: &[u8],
    text: &[u8],
    lens: &[usize],
    body: &[u8],
) -> Written {
    let fields = [
        header.version as usize,
        header.is_response as usize,
        header.flags as usize,
        header.stream as u16 as usize,
        header.opcode as usize,
    ];
    let mut said: Said = [0; 16];
    unsafe {
        judged_write_envelope(
            out.as_mut_ptr(),
            out.len(),
            fields.as_ptr(),
            fields.len(),
            id.as_ptr(),
            id.len(),
            text.as_ptr(),
            text.len(),
            lens.as_ptr(),
            lens.len(),
            body.as_ptr(),
            body.len(),
            said.as_mut_ptr(),
            said.len(),
        )
    };
    written(&said)
}

#[derive(Clone, Copy, Debug, PartialEq, Eq)]
pub struct Encoder {
    pub form: Form,
    pub payload: usize,
}

/// How many bytes were written, and how many were taken of what was given; or the number of the refusal.
pub type Encoded = Result<(usize, usize), u8>;

fn encoded(said: &Said) -> Encoded {
    if said[0] == 1 {
        Ok((said[1], said[2]))
    } else {
        Err(said[1] as u8)
    }
}

impl Encoder {
    pub fn new(form: Form) -> Self {
        Encoder { form, payload: 0 }
    }

    fn words(&self) -> [usize; 2] {
        [self.form as usize, self.payload]
    }

    fn put(&mut self, words: [usize; 2]) {
        self.form = if words[0] == 1 {
            Form::Long
        } else {
            Form::Short
        };
        self.payload = words[1];
    }

    pub fn can_fit(&self, len: usize) -> bool {
        let words = self.words();
        unsafe { judged_can_fit(words.as_ptr(), words.len(), len) }
    }

    pub fn has_envelopes(&self) -> bool {
        let words = self.words();
        unsafe { judged_has_envelopes(words.as_ptr(), words.len()) }
    }

    pub fn reset(&mut self) {
        let mut words = self.words();
        unsafe { judged_reset(words.as_mut_ptr(), words.len()) };
        self.put(words);
    }

    /// A call on this writer and an output, which leaves the next writer.
    fn call(
        &mut self,
        out: &mut [u8],
        call: impl FnOnce(*mut usize, usize, *mut u8, usize, *mut usize, usize),
    ) -> Encoded {
        let (mut words, o, room) = (self.words(), out.as_mut_ptr(), out.len());
        let said = said_by(|said, n| call(words.as_mut_ptr(), words.len(), o, room, said, n));
        self.put(words);
        encoded(&said)
    }

    pub fn add(&mut self, out: &mut [u8], envelope: &[u8]) -> Encoded {
        let (e, len) = (envelope.as_ptr(), envelope.len());
        self.call(out, |w, k, o, room, said, n| unsafe {
            judged_add(w, k, o, room, e, len, said, n)
        })
    }

    pub fn finish(&mut self, out: &mut [u8]) -> Encoded {
        self.call(out, |w, k, o, room, said, n| unsafe {
            judged_finish(w, k, o, room, said, n)
        })
    }

    pub fn piece(&mut self, out: &mut [u8], envelope: &[u8]) -> Encoded {
        let (e, len) = (envelope.as_ptr(), envelope.len());
        self.call(out, |w, k, o, room, said, n| unsafe {
            judged_piece(w, k, o, room, e, len, said, n)
        })
    }
}

#[derive(Clone, Copy, Debug, PartialEq, Eq)]
pub enum Head {
    Incomplete,
    Whole {
        payload: usize,
        uncompressed: usize,
        self_contained: bool,
    },
    Refused(u8),
}

pub fn read_header(form: Form, bytes: &[u8]) -> Head {
    let (b, len) = (bytes.as_ptr(), bytes.len());
    let said = said_by(|said, n| unsafe { judged_header(form as usize, b, len, said, n) });
    match said[0] {
        0 => Head::Incomplete,
        1 => Head::Whole {
            payload: said[1],
            uncompressed: said[2],
            self_contained: said[3] == 1,
        },
        _ => Head::Refused(said[1] as u8),
    }
}
