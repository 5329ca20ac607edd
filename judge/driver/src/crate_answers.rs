//! The answers of the Rust crate. A call that panics does not complete, and is answered `stops`.

use std::panic::{self, AssertUnwindSafe};

use hart_protocol::commands::read_device_id::{ReadDeviceIdRequest, ReadDeviceIdResponse};
use hart_protocol::commands::read_device_vars::{
    DeviceVariable, ReadDeviceVarsRequest, ReadDeviceVarsResponse,
};
use hart_protocol::commands::read_tag_descriptor_date::{
    ReadTagDescriptorDateRequest, ReadTagDescriptorDateResponse,
};
use hart_protocol::commands::read_unique_id_by_tag::{
    decode_tag, ReadUniqueIdByTagRequest, ReadUniqueIdByTagResponse,
};
use hart_protocol::commands::write_tag_descriptor_date::{
    WriteTagDescriptorDateRequest, WriteTagDescriptorDateResponse,
};
use hart_protocol::commands::{CommandRequest, CommandResponse};
use hart_protocol::consts;
use hart_protocol::packed_string::{decode_packed, encode_packed};
use hart_protocol::{encode_frame, DecodeError, Decoder, EncodeError, MasterRole, ResponseStatus};

use crate::answers::{Answer, Ending, Heard, Refusal, Variable};
use crate::cases::{
    fresh_room, Address, Case, Command, Frame, FrameType, Identity, Mode, TagDescriptorDate, Way,
};

/// The identity in a response of command 0 or 11: two types with the same fields.
macro_rules! identity_of {
    ($response:expr) => {
        Identity {
            expansion: $response.expansion_code,
            device_type: $response.expanded_device_type,
            minimum_preambles: $response.min_preamble_count,
            hart_revision: $response.hart_revision,
            device_revision: $response.device_revision,
            software_revision: $response.software_revision,
            hardware_revision: $response.hardware_revision,
            signalling: $response.physical_signaling,
            flags: $response.flags,
            number: $response.device_id,
        }
    };
}

/// The fields in a response of command 13 or 18: two types with the same fields.
macro_rules! tag_descriptor_date_of {
    ($response:expr) => {
        TagDescriptorDate {
            tag: $response.tag,
            descriptor: $response.descriptor,
            date: [$response.day, $response.month, $response.year],
        }
    };
}

/// The crate with its three decoders, one for each way to feed ours. A decoder that did not complete
/// a call is gone until new ones are made.
pub struct Crate {
    decoders: [Option<Decoder>; 3],
}

impl Crate {
    pub fn new() -> Self {
        panic::set_hook(Box::new(pass_over_panics_of_the_crate));
        Crate { decoders: new_decoders() }
    }

    pub fn answer(&mut self, case: &Case) -> Answer {
        match case {
            Case::Remark => Answer::Remark,
            Case::New => {
                self.decoders = new_decoders();
                Answer::Done
            }
            Case::Reset => {
                self.decoders.iter_mut().flatten().for_each(Decoder::reset);
                Answer::Done
            }
            Case::Feed(way, bytes) => feed(&mut self.decoders[*way as usize], bytes),
            Case::WriteAddress(address, room) => {
                let address = crate_address(address);
                written(*room, |buf| Ok(address.encode(buf)))
            }
            Case::ReadAddress { long, bytes } => {
                match completed(|| hart_protocol::Address::decode(bytes, *long)) {
                    Some(Ok((address, used))) => Answer::Address(used, our_address(&address)),
                    Some(Err(refusal)) => Answer::Refused(our_refusal(&refusal)),
                    None => Answer::Stops,
                }
            }
            Case::WriteFrame { frame, preambles, room } => {
                let frame_type = crate_frame_type(frame.frame_type);
                let address = crate_address(&frame.address);
                let (command, data) = (frame.command, &frame.data);
                written(*room, |buf| {
                    encode_frame(frame_type, &address, command, data, *preambles, buf)
                })
            }
            Case::Pack { mode: Mode::Crate, room, text } => {
                written(*room, |buf| Ok(encode_packed(text, buf)))
            }
            Case::Unpack { mode: Mode::Crate, room, packed } => {
                written(*room, |buf| Ok(decode_packed(packed, buf)))
            }
            Case::Status(bytes) => status(*bytes),
            Case::Identity(data) | Case::ReadIdentity(data) => {
                read(data, |r: ReadDeviceIdResponse| Answer::Identity(identity_of!(r)))
            }
            Case::WriteCodes { room, codes } => write_codes(*room, codes),
            Case::ReadVariables(Mode::Crate, data) => read(data, |r: ReadDeviceVarsResponse| {
                Answer::Variables(r.variables.iter().map(our_variable).collect())
            }),
            Case::WriteTag { mode: Mode::Crate, room, tag } => {
                let request = ReadUniqueIdByTagRequest { tag: *tag };
                written(*room, |buf| request.encode_data(buf))
            }
            Case::ReadIdentityByTag(data) => {
                read(data, |r: ReadUniqueIdByTagResponse| Answer::Identity(identity_of!(r)))
            }
            Case::ReadTag(Mode::Crate, packed) => match completed(|| decode_tag(packed)) {
                Some(tag) => Answer::Tag(tag),
                None => Answer::Stops,
            },
            Case::WriteTagDescriptorDate { mode: Mode::Crate, room, fields } => {
                let [day, month, year] = fields.date;
                let (tag, descriptor) = (fields.tag, fields.descriptor);
                let request = WriteTagDescriptorDateRequest { tag, descriptor, day, month, year };
                written(*room, |buf| request.encode_data(buf))
            }
            Case::ReadTagDescriptorDate(Mode::Crate, data) => {
                read(data, |r: WriteTagDescriptorDateResponse| {
                    Answer::TagDescriptorDate(tag_descriptor_date_of!(r))
                })
            }
            Case::ReadStoredText(Mode::Crate, data) => {
                read(data, |r: ReadTagDescriptorDateResponse| {
                    Answer::TagDescriptorDate(tag_descriptor_date_of!(r))
                })
            }
            Case::WriteNoData(Command::ReadIdentity, room) => {
                written(*room, |buf| ReadDeviceIdRequest.encode_data(buf))
            }
            Case::WriteNoData(Command::ReadTagDescriptorDate, room) => {
                written(*room, |buf| ReadTagDescriptorDateRequest.encode_data(buf))
            }
            Case::Constants => Answer::Constants(constants()),
            // Nobody can give the crate's decoder a value: the two are gone.
            Case::Become(_) => {
                self.decoders[Way::Value as usize] = None;
                self.decoders[Way::Lent as usize] = None;
                Answer::Stops
            }
            // What documents 01 and 02 add, of which the crate has no call.
            Case::Pack { mode: Mode::Standard, .. }
            | Case::Unpack { mode: Mode::Standard, .. }
            | Case::ReadVariables(Mode::Standard, _)
            | Case::Worth(_)
            | Case::WriteTag { mode: Mode::Standard, .. }
            | Case::ReadTag(Mode::Standard, _)
            | Case::WriteTagDescriptorDate { mode: Mode::Standard, .. }
            | Case::ReadTagDescriptorDate(Mode::Standard, _)
            | Case::Payload(..)
            | Case::ReadFrame(..)
            | Case::ReadStoredText(Mode::Standard, _)
            | Case::WriteNoData(..)
            | Case::ReadRequest(..)
            | Case::WriteResponse { .. }
            | Case::PutFields { .. }
            | Case::WriteFields { .. }
            | Case::FeedBlock { .. }
            | Case::ClearBlock(_)
            | Case::Dump(_)
            | Case::EndOfDump => Answer::Stops,
        }
    }
}

/// A panic inside the crate is an answer. One of our own is a fault, and ends the program.
fn pass_over_panics_of_the_crate(info: &panic::PanicHookInfo) {
    let file = info.location().map_or("", |location| location.file());
    if !file.contains("hart-protocol") {
        eprintln!("judge: {info}");
        std::process::abort();
    }
}

fn completed<T>(call: impl FnOnce() -> T) -> Option<T> {
    panic::catch_unwind(AssertUnwindSafe(call)).ok()
}

/// The crate has two ways to make a decoder; both are taken.
fn new_decoders() -> [Option<Decoder>; 3] {
    [Some(Decoder::new()), Some(Decoder::default()), Some(Decoder::new())]
}

fn feed(decoder: &mut Option<Decoder>, bytes: &[u8]) -> Answer {
    let mut events = Vec::new();
    for (place, &byte) in bytes.iter().enumerate() {
        let Some(whole) = decoder else {
            break;
        };
        match completed(|| whole.feed(byte)) {
            Some(Ok(None)) => {}
            Some(Ok(Some(frame))) => events.push((place, Heard::Frame(our_frame(&frame)))),
            Some(Err(refusal)) => {
                events.push((place, Heard::Refused(our_refusal(&refusal))));
            }
            None => *decoder = None,
        }
    }
    Answer::Heard { events, stops: decoder.is_none() }
}

/// A call that writes into a buffer, and the buffer after it.
fn written(room: usize, call: impl FnOnce(&mut [u8]) -> Result<usize, EncodeError>) -> Answer {
    let mut buf = fresh_room(room);
    let ending = match completed(|| call(&mut buf)) {
        Some(Ok(count)) => Ending::Count(count),
        Some(Err(EncodeError::DataTooLong)) => Ending::Refused(Refusal::DataTooLong),
        Some(Err(EncodeError::BufferTooSmall)) => Ending::Refused(Refusal::BufferTooSmall),
        None => Ending::Stops,
    };
    Answer::Written(ending, buf)
}

fn read<R: CommandResponse>(data: &[u8], show: impl FnOnce(R) -> Answer) -> Answer {
    match completed(|| R::decode_data(data)) {
        Some(Ok(response)) => show(response),
        Some(Err(refusal)) => Answer::Refused(our_refusal(&refusal)),
        None => Answer::Stops,
    }
}

/// The crate's request holds at most eight codes: of more there is no call to make.
fn write_codes(room: usize, codes: &[u8]) -> Answer {
    let mut slot_codes = heapless::Vec::new();
    for &code in codes {
        if slot_codes.push(code).is_err() {
            return Answer::Stops;
        }
    }
    let request = ReadDeviceVarsRequest { slot_codes };
    written(room, |buf| request.encode_data(buf))
}

fn status(bytes: [u8; 2]) -> Answer {
    let flags = completed(|| {
        let status = ResponseStatus::from_bytes(bytes);
        [
            status.has_error(),
            status.device_malfunction(),
            status.config_changed(),
            status.cold_start(),
            status.more_status_available(),
            status.pv_out_of_limits(),
        ]
    });
    flags.map_or(Answer::Stops, Answer::Status)
}

fn our_refusal(refusal: &DecodeError) -> Refusal {
    match *refusal {
        DecodeError::BufferTooShort => Refusal::BufferTooShort,
        DecodeError::InvalidDelimiter(byte) => Refusal::InvalidDelimiter(byte),
        DecodeError::ChecksumMismatch { expected, actual } => {
            Refusal::ChecksumMismatch { expected, actual }
        }
    }
}

/// The crate's constants but the UART times, in the order of its file.
fn constants() -> Vec<u16> {
    use consts::{address::*, commands::*, delimiter::*};
    let lengths = [consts::MAX_DATA_LENGTH, consts::MAX_FRAME_LENGTH];
    let preamble = [
        consts::PREAMBLE_BYTE,
        consts::MIN_PREAMBLE_COUNT,
        consts::MAX_PREAMBLE_COUNT,
        consts::DEFAULT_PREAMBLE_COUNT,
    ];
    let wire = [
        REQUEST_SHORT,
        REQUEST_LONG,
        RESPONSE_SHORT,
        RESPONSE_LONG,
        BURST_SHORT,
        BURST_LONG,
        LONG_ADDRESS_BIT,
        PRIMARY_MASTER_BIT,
        BURST_MODE_BIT,
        SHORT_ADDRESS_MASK,
        MANUFACTURER_ID_MASK,
    ];
    let commands = [
        READ_DEVICE_ID,
        READ_PRIMARY_VARIABLE,
        READ_LOOP_CURRENT_PERCENT,
        READ_DYNAMIC_VARS,
        WRITE_POLLING_ADDRESS,
        READ_LOOP_CONFIG,
        READ_DYNAMIC_VAR_CLASS,
        READ_DEVICE_VARS_WITH_STATUS,
        READ_UNIQUE_ID_BY_TAG,
        READ_MESSAGE,
        READ_TAG_DESCRIPTOR_DATE,
        READ_PV_TRANSDUCER_INFO,
        READ_DEVICE_INFO,
        READ_FINAL_ASSEMBLY_NUMBER,
        WRITE_MESSAGE,
        WRITE_TAG_DESCRIPTOR_DATE,
        WRITE_FINAL_ASSEMBLY_NUMBER,
        READ_LONG_TAG,
        READ_UNIQUE_ID_BY_LONG_TAG,
        WRITE_LONG_TAG,
        RESET_CONFIG_CHANGED,
        READ_ADDITIONAL_STATUS,
    ];
    let mut values: Vec<u16> = preamble.map(u16::from).to_vec();
    values.extend(lengths.map(|length| length as u16));
    values.extend(wire.into_iter().chain(commands).map(u16::from));
    values
}

fn our_frame(frame: &hart_protocol::RawFrame) -> Frame {
    Frame {
        frame_type: match frame.frame_type {
            hart_protocol::FrameType::Request => FrameType::Request,
            hart_protocol::FrameType::Response => FrameType::Response,
            hart_protocol::FrameType::Burst => FrameType::Burst,
        },
        address: our_address(&frame.address),
        command: frame.command,
        data: frame.data.to_vec(),
    }
}

fn crate_frame_type(frame_type: FrameType) -> hart_protocol::FrameType {
    match frame_type {
        FrameType::Request => hart_protocol::FrameType::Request,
        FrameType::Response => hart_protocol::FrameType::Response,
        FrameType::Burst => hart_protocol::FrameType::Burst,
    }
}

fn our_address(address: &hart_protocol::Address) -> Address {
    match *address {
        hart_protocol::Address::Short { master, burst, poll_address } => {
            Address::Short { primary: master == MasterRole::Primary, burst, polling: poll_address }
        }
        hart_protocol::Address::Long { master, burst, manufacturer_id, device_type, device_id } => {
            Address::Long {
                primary: master == MasterRole::Primary,
                burst,
                manufacturer: manufacturer_id,
                device_type,
                number: device_id,
            }
        }
    }
}

fn crate_address(address: &Address) -> hart_protocol::Address {
    let master = |primary| if primary { MasterRole::Primary } else { MasterRole::Secondary };
    match *address {
        Address::Short { primary, burst, polling } => {
            hart_protocol::Address::Short { master: master(primary), burst, poll_address: polling }
        }
        Address::Long { primary, burst, manufacturer, device_type, number } => {
            hart_protocol::Address::Long {
                master: master(primary),
                burst,
                manufacturer_id: manufacturer,
                device_type,
                device_id: number,
            }
        }
    }
}

fn our_variable(variable: &DeviceVariable) -> Variable {
    Variable {
        code: variable.device_var_code,
        class: variable.classification,
        unit: variable.unit.as_u8(),
        value: variable.value.to_bits(),
        status: variable.status,
    }
}
