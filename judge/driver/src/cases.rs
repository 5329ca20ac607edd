//! The cases that the programs under comparison share: a case is a line. judge/README.md says it in
//! words; answers.rs has the other half of the format.

use std::fmt;
use std::io::{self, BufRead};
use std::ops::Range;

/// The most bytes that a case may have; a remark may have more.
pub const MOST_BYTES: usize = 4096;
/// The longest buffer or block that a case may hand over.
pub const MOST_ROOM: usize = 1024;
/// The most data that a frame holds.
pub const MOST_DATA: usize = 255;
/// The bytes of address and data that a decoder holds.
pub const HELD_BYTES: usize = 5 + MOST_DATA;
/// The most fields that are put in turn, and the most of a whole response.
pub const MOST_PUT: usize = 12;
pub const MOST_FIELDS: usize = 10;
/// The most groups that a response of command 9 is handed.
pub const MOST_GROUPS: usize = 8;

/// The three ways to feed a decoder, each with a decoder of its own.
#[derive(Clone, Copy, Debug, PartialEq)]
pub enum Way {
    Value,
    Lent,
    Block,
}

pub const WAYS: [Way; 3] = [Way::Value, Way::Lent, Way::Block];

/// The two modes of packed text, and of the commands that document 01 reads in two ways.
#[derive(Clone, Copy, Debug, PartialEq)]
pub enum Mode {
    Crate,
    Standard,
}

pub const MODES: [Mode; 2] = [Mode::Crate, Mode::Standard];

/// How a device's reader is handed a frame: as one value, or as its type, command and data.
#[derive(Clone, Copy, Debug, PartialEq)]
pub enum Handed {
    Whole,
    InParts,
}

pub const HANDED: [Handed; 2] = [Handed::Whole, Handed::InParts];

#[derive(Clone, Copy, Debug, PartialEq)]
pub enum FrameType {
    Request,
    Response,
    Burst,
}

pub const FRAME_TYPES: [FrameType; 3] = [FrameType::Request, FrameType::Response, FrameType::Burst];

/// What a decoder waits for, by the numbers of the state block.
#[derive(Clone, Copy, Debug, PartialEq, PartialOrd)]
pub enum Phase {
    Hunting,
    Preamble,
    Address,
    Command,
    ByteCount,
    Data,
    Check,
}

pub const PHASES: [Phase; 7] = [
    Phase::Hunting,
    Phase::Preamble,
    Phase::Address,
    Phase::Command,
    Phase::ByteCount,
    Phase::Data,
    Phase::Check,
];

/// The commands that are read straight from a frame, and that a device answers.
#[derive(Clone, Copy, Debug, PartialEq)]
pub enum Command {
    ReadIdentity,
    ReadVariables,
    ReadIdentityByTag,
    ReadTagDescriptorDate,
    WriteTagDescriptorDate,
}

pub const COMMANDS: [Command; 5] = [
    Command::ReadIdentity,
    Command::ReadVariables,
    Command::ReadIdentityByTag,
    Command::ReadTagDescriptorDate,
    Command::WriteTagDescriptorDate,
];

/// Those whose requests carry no data.
pub const WITHOUT_DATA: [Command; 2] = [Command::ReadIdentity, Command::ReadTagDescriptorDate];

/// An address. A short one has a polling address; a long one a manufacturer, a device type and a
/// device number. Fields may be larger than the wire has bits for.
#[derive(Clone, Debug, PartialEq)]
pub enum Address {
    Short { primary: bool, burst: bool, polling: u8 },
    Long { primary: bool, burst: bool, manufacturer: u8, device_type: u8, number: u32 },
}

#[derive(Clone, Debug, PartialEq)]
pub struct Frame {
    pub frame_type: FrameType,
    pub address: Address,
    pub command: u8,
    pub data: Vec<u8>,
}

#[derive(Clone, Debug, PartialEq)]
pub struct TagDescriptorDate {
    pub tag: [u8; 8],
    pub descriptor: [u8; 16],
    /// Day, month, year.
    pub date: [u8; 3],
}

/// Document 01's identity, field by field. Fields may be larger than the wire has bits for.
#[derive(Clone, Debug, PartialEq)]
pub struct Identity {
    pub expansion: u8,
    pub device_type: u16,
    pub minimum_preambles: u8,
    pub hart_revision: u8,
    pub device_revision: u8,
    pub software_revision: u8,
    pub hardware_revision: u8,
    pub signalling: u8,
    pub flags: u8,
    pub number: u32,
}

/// What a device answers behind its two status bytes.
#[derive(Clone, Debug, PartialEq)]
pub enum Response {
    /// To command 0 or 11.
    Identity(Identity),
    /// To command 9: the first so many of eight groups, which are these and zeros behind them.
    Variables { extended: u8, count: u8, groups: Vec<[u8; 8]> },
    /// To command 13 or 18.
    Text(Mode, TagDescriptorDate),
}

/// A part of a response, as it is put at a place.
#[derive(Clone, Debug, PartialEq)]
pub enum Field {
    Status([u8; 2]),
    Byte(u8),
    Group([u8; 8]),
    /// The 12 bytes as they stand on the line.
    Identity([u8; 12]),
    Tag(Mode, [u8; 8]),
    Descriptor(Mode, [u8; 16]),
    Date([u8; 3]),
}

/// The value that a decoder is to have. Fields that its phase does not have mean nothing.
#[derive(Clone, Debug, PartialEq)]
pub struct DecoderValue {
    pub phase: Phase,
    pub frame_type: FrameType,
    pub long: bool,
    /// The running check.
    pub check: u8,
    /// Preamble bytes, address bytes or data bytes so far, as the phase has it.
    pub count: u8,
    pub command: u8,
    /// The data bytes expected.
    pub expected: u8,
    /// Those of the address, then of the data; zeros where they are not given.
    pub bytes: Vec<u8>,
}

/// A frame as a typed reading takes it.
#[derive(Clone, Debug, PartialEq)]
pub struct Carrier {
    pub frame_type: FrameType,
    pub command: u8,
    pub data: Vec<u8>,
}

/// One call, or for `Feed` one call for each byte, and for `PutFields` for each field.
#[derive(Clone, Debug, PartialEq)]
pub enum Case {
    /// No call: a line for people.
    Remark,
    New,
    Reset,
    Feed(Way, Vec<u8>),
    /// The decoders by value and lent become this value.
    Become(DecoderValue),
    WriteAddress(Address, usize),
    ReadAddress {
        long: bool,
        bytes: Vec<u8>,
    },
    WriteFrame {
        frame: Frame,
        preambles: u8,
        room: usize,
    },
    Pack {
        mode: Mode,
        room: usize,
        text: Vec<u8>,
    },
    Unpack {
        mode: Mode,
        room: usize,
        packed: Vec<u8>,
    },
    Status([u8; 2]),
    Identity(Vec<u8>),
    WriteCodes {
        room: usize,
        codes: Vec<u8>,
    },
    ReadVariables(Mode, Vec<u8>),
    /// The reading of a device variable of these bytes.
    Worth([u8; 8]),
    WriteTag {
        mode: Mode,
        room: usize,
        tag: [u8; 8],
    },
    ReadIdentityByTag(Vec<u8>),
    ReadTag(Mode, [u8; 6]),
    WriteTagDescriptorDate {
        mode: Mode,
        room: usize,
        fields: TagDescriptorDate,
    },
    ReadTagDescriptorDate(Mode, Vec<u8>),
    Payload(FrameType, Vec<u8>),
    ReadFrame(Mode, Command, Carrier),
    /// The response of command 0.
    ReadIdentity(Vec<u8>),
    /// The response of command 13.
    ReadStoredText(Mode, Vec<u8>),
    /// The request of command 0 or 13.
    WriteNoData(Command, usize),
    /// A request as a device reads it.
    ReadRequest(Handed, Mode, Command, Carrier),
    WriteResponse {
        command: Command,
        room: usize,
        status: [u8; 2],
        response: Response,
    },
    /// Fields one after the other, from this place on.
    PutFields {
        room: usize,
        start: u64,
        fields: Vec<Field>,
    },
    /// A whole response of these fields.
    WriteFields {
        room: usize,
        fields: Vec<Field>,
    },
    /// The C call for one byte, over a block and a room of the case's own.
    FeedBlock {
        room: usize,
        byte: u8,
        block: Vec<u8>,
    },
    ClearBlock(Vec<u8>),
    Constants,
    /// The dump takes these bytes, as one read.
    Dump(Vec<u8>),
    /// The dump's last line, as it would be now.
    EndOfDump,
}

/// The buffer that a call is handed, as it is before the call.
pub fn fresh_room(room: usize) -> Vec<u8> {
    (0..room).map(|place| 0xA0 + (place % 16) as u8).collect()
}

impl Way {
    pub fn letter(self) -> char {
        match self {
            Way::Value => 'v',
            Way::Lent => 'l',
            Way::Block => 'b',
        }
    }
}

impl FrameType {
    pub fn number(self) -> u8 {
        match self {
            FrameType::Request => 0,
            FrameType::Response => 1,
            FrameType::Burst => 2,
        }
    }

    pub fn from_number(number: u8) -> Option<FrameType> {
        FRAME_TYPES.get(usize::from(number)).copied()
    }
}

impl Mode {
    /// The letter of crate mode, in upper case for the same call in standard mode.
    fn letter(self, letter: char) -> char {
        match self {
            Mode::Crate => letter,
            Mode::Standard => letter.to_ascii_uppercase(),
        }
    }

    fn of_letter(letter: u8) -> Mode {
        if letter.is_ascii_uppercase() {
            Mode::Standard
        } else {
            Mode::Crate
        }
    }
}

impl Phase {
    pub fn from_number(number: u8) -> Option<Phase> {
        PHASES.get(usize::from(number)).copied()
    }
}

impl Command {
    pub fn number(self) -> u8 {
        match self {
            Command::ReadIdentity => 0,
            Command::ReadVariables => 9,
            Command::ReadIdentityByTag => 11,
            Command::ReadTagDescriptorDate => 13,
            Command::WriteTagDescriptorDate => 18,
        }
    }

    fn from_number(number: u8) -> Option<Command> {
        COMMANDS.into_iter().find(|command| command.number() == number)
    }
}

impl Address {
    pub fn is_long(&self) -> bool {
        matches!(self, Address::Long { .. })
    }

    /// The seven bytes K X T N N N N.
    pub fn as_seven(&self) -> [u8; 7] {
        let flags = |primary, burst| 2 * u8::from(primary) + 4 * u8::from(burst);
        match *self {
            Address::Short { primary, burst, polling } => {
                [flags(primary, burst), polling, 0, 0, 0, 0, 0]
            }
            Address::Long { primary, burst, manufacturer, device_type, number } => {
                let [n0, n1, n2, n3] = number.to_be_bytes();
                [1 + flags(primary, burst), manufacturer, device_type, n0, n1, n2, n3]
            }
        }
    }

    fn from_seven([k, x, t, n0, n1, n2, n3]: [u8; 7]) -> Option<Address> {
        if k > 7 {
            return None;
        }
        let (primary, burst) = (k & 2 != 0, k & 4 != 0);
        Some(if k & 1 == 0 {
            Address::Short { primary, burst, polling: x }
        } else {
            Address::Long {
                primary,
                burst,
                manufacturer: x,
                device_type: t,
                number: u32::from_be_bytes([n0, n1, n2, n3]),
            }
        })
    }
}

impl TagDescriptorDate {
    pub fn as_bytes(&self) -> Vec<u8> {
        [&self.tag[..], &self.descriptor, &self.date].concat()
    }
}

impl Identity {
    /// The 14 bytes of cases and answers, in which every field is whole.
    pub fn as_bytes(&self) -> Vec<u8> {
        let mut bytes = vec![self.expansion];
        bytes.extend(self.device_type.to_be_bytes());
        bytes.extend([self.minimum_preambles, self.hart_revision, self.device_revision]);
        bytes.extend([self.software_revision, self.hardware_revision, self.signalling, self.flags]);
        bytes.extend(self.number.to_be_bytes());
        bytes
    }
}

impl Response {
    fn as_bytes(&self) -> Vec<u8> {
        match self {
            Response::Identity(identity) => identity.as_bytes(),
            Response::Variables { extended, count, groups } => {
                [&[*extended, *count], &groups.concat()[..]].concat()
            }
            Response::Text(mode, fields) => [&[*mode as u8], &fields.as_bytes()[..]].concat(),
        }
    }
}

impl Field {
    /// A kind byte, and the field's own.
    fn as_bytes(&self) -> Vec<u8> {
        let in_mode = |first: u8, mode: Mode| first + mode as u8;
        let (kind, bytes) = match self {
            Field::Status(bytes) => (0, &bytes[..]),
            Field::Byte(byte) => (1, std::slice::from_ref(byte)),
            Field::Group(bytes) => (2, &bytes[..]),
            Field::Identity(bytes) => (3, &bytes[..]),
            Field::Tag(mode, bytes) => (in_mode(4, *mode), &bytes[..]),
            Field::Descriptor(mode, bytes) => (in_mode(6, *mode), &bytes[..]),
            Field::Date(bytes) => (8, &bytes[..]),
        };
        [&[kind], bytes].concat()
    }
}

fn bytes_of_fields(fields: &[Field]) -> Vec<u8> {
    fields.iter().flat_map(Field::as_bytes).collect()
}

impl DecoderValue {
    fn as_bytes(&self) -> Vec<u8> {
        let type_and_long = [self.frame_type.number(), u8::from(self.long)];
        let numbers = [self.check, self.count, self.command, self.expected];
        [&[self.phase as u8], &type_and_long[..], &numbers, &self.bytes].concat()
    }
}

impl Carrier {
    /// Behind the case's first byte, and the reader's command.
    fn as_bytes(&self, first: u8, reader: Command) -> Vec<u8> {
        let head = [first, reader.number(), self.frame_type.number(), self.command];
        [&head, &self.data[..]].concat()
    }
}

/// The bytes of a case, taken from the front.
struct Fields(std::vec::IntoIter<u8>);

impl Fields {
    fn byte(&mut self) -> Option<u8> {
        self.0.next()
    }

    fn bytes<const N: usize>(&mut self) -> Option<[u8; N]> {
        let mut bytes = [0; N];
        for byte in &mut bytes {
            *byte = self.byte()?;
        }
        Some(bytes)
    }

    fn short_room(&mut self) -> Option<usize> {
        self.byte().map(usize::from)
    }

    fn room(&mut self) -> Option<usize> {
        let room = usize::from(u16::from_be_bytes(self.bytes()?));
        (room <= MOST_ROOM).then_some(room)
    }

    fn flag(&mut self) -> Option<bool> {
        match self.byte()? {
            0 => Some(false),
            1 => Some(true),
            _ => None,
        }
    }

    fn mode(&mut self) -> Option<Mode> {
        self.flag().map(|standard| if standard { Mode::Standard } else { Mode::Crate })
    }

    /// Both in one byte: bit 1, and the mode below it.
    fn handed_and_mode(&mut self) -> Option<(Handed, Mode)> {
        let byte = usize::from(self.byte()?);
        Some((*HANDED.get(byte / 2)?, MODES[byte % 2]))
    }

    fn frame_type(&mut self) -> Option<FrameType> {
        FrameType::from_number(self.byte()?)
    }

    fn command(&mut self) -> Option<Command> {
        Command::from_number(self.byte()?)
    }

    fn carrier(&mut self) -> Option<Carrier> {
        let frame_type = self.frame_type()?;
        Some(Carrier { frame_type, command: self.byte()?, data: self.rest() })
    }

    fn address(&mut self) -> Option<Address> {
        Address::from_seven(self.bytes()?)
    }

    fn tag_descriptor_date(&mut self) -> Option<TagDescriptorDate> {
        Some(TagDescriptorDate {
            tag: self.bytes()?,
            descriptor: self.bytes()?,
            date: self.bytes()?,
        })
    }

    fn identity(&mut self) -> Option<Identity> {
        Some(Identity {
            expansion: self.byte()?,
            device_type: u16::from_be_bytes(self.bytes()?),
            minimum_preambles: self.byte()?,
            hart_revision: self.byte()?,
            device_revision: self.byte()?,
            software_revision: self.byte()?,
            hardware_revision: self.byte()?,
            signalling: self.byte()?,
            flags: self.byte()?,
            number: u32::from_be_bytes(self.bytes()?),
        })
    }

    fn response(&mut self, command: Command) -> Option<Response> {
        Some(match command {
            Command::ReadIdentity | Command::ReadIdentityByTag => {
                Response::Identity(self.identity()?)
            }
            Command::ReadVariables => Response::Variables {
                extended: self.byte()?,
                count: self.byte()?,
                groups: self.up_to(MOST_GROUPS, Fields::bytes)?,
            },
            Command::ReadTagDescriptorDate | Command::WriteTagDescriptorDate => {
                Response::Text(self.mode()?, self.tag_descriptor_date()?)
            }
        })
    }

    fn field(&mut self) -> Option<Field> {
        Some(match self.byte()? {
            0 => Field::Status(self.bytes()?),
            1 => Field::Byte(self.byte()?),
            2 => Field::Group(self.bytes()?),
            3 => Field::Identity(self.bytes()?),
            4 => Field::Tag(Mode::Crate, self.bytes()?),
            5 => Field::Tag(Mode::Standard, self.bytes()?),
            6 => Field::Descriptor(Mode::Crate, self.bytes()?),
            7 => Field::Descriptor(Mode::Standard, self.bytes()?),
            8 => Field::Date(self.bytes()?),
            _ => return None,
        })
    }

    /// All that is left, as at most so many.
    fn up_to<T>(&mut self, most: usize, next: fn(&mut Fields) -> Option<T>) -> Option<Vec<T>> {
        let mut all = Vec::new();
        while self.0.len() > 0 {
            all.push(next(self)?);
        }
        (all.len() <= most).then_some(all)
    }

    fn rest(&mut self) -> Vec<u8> {
        self.0.by_ref().collect()
    }

    fn rest_up_to(&mut self, most: usize) -> Option<Vec<u8>> {
        let rest = self.rest();
        (rest.len() <= most).then_some(rest)
    }
}

/// The next line of a text without its newline, which the last one may lack.
pub fn next_line(text: &mut impl BufRead) -> io::Result<Option<Vec<u8>>> {
    let mut line = Vec::new();
    if text.read_until(b'\n', &mut line)? == 0 {
        return Ok(None);
    }
    if line.last() == Some(&b'\n') {
        line.pop();
    }
    Ok(Some(line))
}

/// All lines of a text.
pub fn lines_of(mut text: &[u8]) -> Vec<Vec<u8>> {
    std::iter::from_fn(|| next_line(&mut text).expect("memory can be read")).collect()
}

/// The letter of a line and its bytes, if it has the form of a case.
pub fn letter_and_bytes(line: &[u8]) -> Option<(u8, Vec<u8>)> {
    let (&letter, digits) = line.split_first()?;
    Some((letter, bytes_of(digits)?))
}

/// Where the fields of a response stand among a line's bytes, and the groups of command 9's.
pub fn parts_of(letter: u8, bytes: &[u8]) -> Vec<Range<usize>> {
    let in_turn = |start: usize, lengths: Vec<usize>| {
        let parts = lengths.into_iter().scan(start, |end, length| {
            *end += length;
            Some(*end - length..*end)
        });
        parts.collect()
    };
    match case_of(letter, &mut Fields(Vec::from(bytes).into_iter())) {
        Some(Case::PutFields { fields, .. }) | Some(Case::WriteFields { fields, .. }) => {
            let lengths: Vec<usize> = fields.iter().map(|field| field.as_bytes().len()).collect();
            in_turn(bytes.len() - lengths.iter().sum::<usize>(), lengths)
        }
        Some(Case::WriteResponse { response: Response::Variables { groups, .. }, .. }) => {
            in_turn(bytes.len() - 8 * groups.len(), vec![8; groups.len()])
        }
        _ => Vec::new(),
    }
}

/// The case that a line says, if it says one.
pub fn parse(line: &[u8]) -> Option<Case> {
    if line.first() == Some(&b'#') {
        return Some(Case::Remark);
    }
    let (letter, bytes) = letter_and_bytes(line)?;
    let mut fields = Fields(bytes.into_iter());
    let case = case_of(letter, &mut fields)?;
    fields.byte().is_none().then_some(case)
}

fn case_of(letter: u8, fields: &mut Fields) -> Option<Case> {
    let mode = Mode::of_letter(letter);
    Some(match letter {
        b'n' => Case::New,
        b'r' => Case::Reset,
        b'v' => Case::Feed(Way::Value, fields.rest()),
        b'l' => Case::Feed(Way::Lent, fields.rest()),
        b'b' => Case::Feed(Way::Block, fields.rest()),
        b'z' => Case::Become(DecoderValue {
            phase: Phase::from_number(fields.byte()?)?,
            frame_type: fields.frame_type()?,
            long: fields.flag()?,
            check: fields.byte()?,
            count: fields.byte()?,
            command: fields.byte()?,
            expected: fields.byte()?,
            bytes: fields.rest_up_to(HELD_BYTES)?,
        }),
        b'w' => Case::WriteAddress(fields.address()?, fields.short_room()?),
        b'a' => Case::ReadAddress { long: fields.flag()?, bytes: fields.rest() },
        b'e' => {
            let frame_type = fields.frame_type()?;
            let address = fields.address()?;
            let command = fields.byte()?;
            let preambles = fields.byte()?;
            let room = fields.room()?;
            let frame = Frame { frame_type, address, command, data: fields.rest() };
            Case::WriteFrame { frame, preambles, room }
        }
        b'p' | b'P' => Case::Pack { mode, room: fields.room()?, text: fields.rest() },
        b'u' | b'U' => Case::Unpack { mode, room: fields.room()?, packed: fields.rest() },
        b's' => Case::Status(fields.bytes()?),
        b'i' => Case::Identity(fields.rest()),
        b'q' => Case::WriteCodes { room: fields.short_room()?, codes: fields.rest() },
        b'g' | b'G' => Case::ReadVariables(mode, fields.rest()),
        b'm' => Case::Worth(fields.bytes()?),
        b't' | b'T' => Case::WriteTag { mode, room: fields.short_room()?, tag: fields.bytes()? },
        b'j' => Case::ReadIdentityByTag(fields.rest()),
        b'k' | b'K' => Case::ReadTag(mode, fields.bytes()?),
        b'd' | b'D' => Case::WriteTagDescriptorDate {
            mode,
            room: fields.short_room()?,
            fields: fields.tag_descriptor_date()?,
        },
        b'h' | b'H' => Case::ReadTagDescriptorDate(mode, fields.rest()),
        b'y' => Case::Payload(fields.frame_type()?, fields.rest()),
        b'f' => Case::ReadFrame(fields.mode()?, fields.command()?, fields.carrier()?),
        b'I' => Case::ReadIdentity(fields.rest()),
        b'J' => Case::ReadStoredText(fields.mode()?, fields.rest()),
        b'O' => {
            let command = fields.command().filter(|command| WITHOUT_DATA.contains(command))?;
            Case::WriteNoData(command, fields.room()?)
        }
        b'Q' => {
            let (handed, mode) = fields.handed_and_mode()?;
            let (reader, carrier) = (fields.command()?, fields.carrier()?);
            if handed == Handed::Whole && carrier.data.len() > MOST_DATA {
                return None;
            }
            Case::ReadRequest(handed, mode, reader, carrier)
        }
        b'R' => {
            let command = fields.command()?;
            let room = fields.room()?;
            let status = fields.bytes()?;
            Case::WriteResponse { command, room, status, response: fields.response(command)? }
        }
        b'W' => Case::PutFields {
            room: fields.room()?,
            start: u64::from_be_bytes(fields.bytes()?),
            fields: fields.up_to(MOST_PUT, Fields::field)?,
        },
        b'F' => Case::WriteFields {
            room: fields.room()?,
            fields: fields.up_to(MOST_FIELDS, Fields::field)?,
        },
        b'o' => Case::FeedBlock {
            room: fields.room()?,
            byte: fields.byte()?,
            block: fields.rest_up_to(MOST_ROOM)?,
        },
        b'c' => Case::ClearBlock(fields.rest_up_to(MOST_ROOM)?),
        b'x' => Case::Constants,
        b'A' => Case::Dump(fields.rest()),
        b'E' => Case::EndOfDump,
        _ => return None,
    })
}

/// The bytes of pairs of hex digits, spaces passed over.
fn bytes_of(digits: &[u8]) -> Option<Vec<u8>> {
    let mut bytes = Vec::with_capacity(digits.len() / 2);
    let mut high = None;
    for &digit in digits.iter().filter(|&&digit| digit != b' ') {
        let value = char::from(digit).to_digit(16)? as u8;
        match high.take() {
            None => high = Some(value),
            Some(high) => bytes.push(16 * high + value),
        }
    }
    (high.is_none() && bytes.len() <= MOST_BYTES).then_some(bytes)
}

impl Case {
    pub fn letter(&self) -> char {
        match self {
            Case::Remark => '#',
            Case::New => 'n',
            Case::Reset => 'r',
            Case::Feed(way, _) => way.letter(),
            Case::Become(_) => 'z',
            Case::WriteAddress(..) => 'w',
            Case::ReadAddress { .. } => 'a',
            Case::WriteFrame { .. } => 'e',
            Case::Pack { mode, .. } => mode.letter('p'),
            Case::Unpack { mode, .. } => mode.letter('u'),
            Case::Status(_) => 's',
            Case::Identity(_) => 'i',
            Case::WriteCodes { .. } => 'q',
            Case::ReadVariables(mode, _) => mode.letter('g'),
            Case::Worth(_) => 'm',
            Case::WriteTag { mode, .. } => mode.letter('t'),
            Case::ReadIdentityByTag(_) => 'j',
            Case::ReadTag(mode, _) => mode.letter('k'),
            Case::WriteTagDescriptorDate { mode, .. } => mode.letter('d'),
            Case::ReadTagDescriptorDate(mode, _) => mode.letter('h'),
            Case::Payload(..) => 'y',
            Case::ReadFrame(..) => 'f',
            Case::ReadIdentity(_) => 'I',
            Case::ReadStoredText(..) => 'J',
            Case::WriteNoData(..) => 'O',
            Case::ReadRequest(..) => 'Q',
            Case::WriteResponse { .. } => 'R',
            Case::PutFields { .. } => 'W',
            Case::WriteFields { .. } => 'F',
            Case::FeedBlock { .. } => 'o',
            Case::ClearBlock(_) => 'c',
            Case::Constants => 'x',
            Case::Dump(_) => 'A',
            Case::EndOfDump => 'E',
        }
    }

    fn as_bytes(&self) -> Vec<u8> {
        let word = |room: usize| (room as u16).to_be_bytes();
        match self {
            Case::Remark | Case::New | Case::Reset | Case::Constants | Case::EndOfDump => {
                Vec::new()
            }
            Case::Feed(_, bytes)
            | Case::Identity(bytes)
            | Case::ReadVariables(_, bytes)
            | Case::ReadIdentityByTag(bytes)
            | Case::ReadTagDescriptorDate(_, bytes)
            | Case::ReadIdentity(bytes)
            | Case::ClearBlock(bytes)
            | Case::Dump(bytes) => bytes.clone(),
            Case::Become(value) => value.as_bytes(),
            Case::WriteAddress(address, room) => [&address.as_seven()[..], &[*room as u8]].concat(),
            Case::ReadAddress { long, bytes } => [&[u8::from(*long)], &bytes[..]].concat(),
            Case::WriteFrame { frame, preambles, room } => [
                &[frame.frame_type.number()],
                &frame.address.as_seven()[..],
                &[frame.command, *preambles],
                &word(*room),
                &frame.data,
            ]
            .concat(),
            Case::Pack { room, text: bytes, .. } | Case::Unpack { room, packed: bytes, .. } => {
                [&word(*room), &bytes[..]].concat()
            }
            Case::Status(bytes) => bytes.to_vec(),
            Case::WriteCodes { room, codes } => [&[*room as u8], &codes[..]].concat(),
            Case::Worth(group) => group.to_vec(),
            Case::WriteTag { room, tag, .. } => [&[*room as u8], &tag[..]].concat(),
            Case::ReadTag(_, packed) => packed.to_vec(),
            Case::WriteTagDescriptorDate { room, fields, .. } => {
                [&[*room as u8], &fields.as_bytes()[..]].concat()
            }
            Case::Payload(frame_type, data) => [&[frame_type.number()], &data[..]].concat(),
            Case::ReadFrame(mode, reader, carrier) => carrier.as_bytes(*mode as u8, *reader),
            Case::ReadRequest(handed, mode, reader, carrier) => {
                carrier.as_bytes(2 * *handed as u8 + *mode as u8, *reader)
            }
            Case::ReadStoredText(mode, data) => [&[*mode as u8], &data[..]].concat(),
            Case::WriteNoData(command, room) => [&[command.number()], &word(*room)[..]].concat(),
            Case::WriteResponse { command, room, status, response } => {
                [&[command.number()], &word(*room)[..], status, &response.as_bytes()].concat()
            }
            Case::PutFields { room, start, fields } => {
                [&word(*room)[..], &start.to_be_bytes(), &bytes_of_fields(fields)].concat()
            }
            Case::WriteFields { room, fields } => {
                [&word(*room)[..], &bytes_of_fields(fields)].concat()
            }
            Case::FeedBlock { room, byte, block } => {
                [&word(*room)[..], &[*byte], &block[..]].concat()
            }
        }
    }
}

impl fmt::Display for Case {
    fn fmt(&self, f: &mut fmt::Formatter) -> fmt::Result {
        let bytes = self.as_bytes();
        if bytes.is_empty() {
            write!(f, "{}", self.letter())
        } else {
            write!(f, "{} {}", self.letter(), hex(&bytes))
        }
    }
}

pub fn hex(bytes: &[u8]) -> String {
    const DIGITS: &[u8; 16] = b"0123456789ABCDEF";
    let mut text = String::with_capacity(2 * bytes.len());
    for &byte in bytes {
        text.push(char::from(DIGITS[usize::from(byte >> 4)]));
        text.push(char::from(DIGITS[usize::from(byte & 15)]));
    }
    text
}

pub fn hex_or_dash(bytes: &[u8]) -> String {
    if bytes.is_empty() {
        "-".into()
    } else {
        hex(bytes)
    }
}
