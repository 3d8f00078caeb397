//! Lists of ticks as bytes, as crates/link_list/specs/Ticks.antt says: eight calls to a tick.

const PARTIES: usize = 8;

pub const NO_CALL: u8 = 0;
/// Every request of these lists says this revision of its device.
pub const REVISION: u8 = 7;
const SHORT_ADDRESS: u8 = 1;
const LONG_ADDRESS: u8 = 2;
const ANSWER: u8 = 1;

/// A host's call: a master's request or a device's answer.
#[derive(Clone)]
pub enum Call {
    Ask {
        preamble: u8,
        long_address: bool,
        address: u64,
        command: u8,
        data: Vec<u8>,
    },
    Answer {
        data: Vec<u8>,
    },
}

impl Call {
    fn write(&self, bytes: &mut Vec<u8>) {
        let (head, address, data) = match self {
            Call::Ask {
                preamble,
                long_address,
                address,
                command,
                data,
            } => {
                let kind = request_kind(*long_address);
                ([kind, *preamble, *command], *address, data)
            }
            Call::Answer { data } => ([ANSWER, 0, 0], 0, data),
        };
        put_call(head, address, data, bytes);
    }
}

/// A call by its kind, preamble and command, with its address and data.
pub fn put_call(head: [u8; 3], address: u64, data: &[u8], bytes: &mut Vec<u8>) {
    let count = u16::try_from(data.len()).expect("at most 256 data bytes");
    bytes.extend(head);
    bytes.extend(&address.to_be_bytes()[3..]);
    bytes.extend(count.to_be_bytes());
    bytes.extend(data);
}

/// The kind of a request.
pub fn request_kind(long_address: bool) -> u8 {
    let form = match long_address {
        true => LONG_ADDRESS,
        false => SHORT_ADDRESS,
    };
    4 * REVISION + form
}

/// The calls of one tick, one at most for each party.
pub type Tick = [Option<Call>; PARTIES];

pub fn silent_tick() -> Tick {
    std::array::from_fn(|_| None)
}

pub fn bytes_of(ticks: &[Tick]) -> Vec<u8> {
    let mut bytes = Vec::new();
    for call in ticks.iter().flatten() {
        match call {
            None => bytes.push(NO_CALL),
            Some(call) => call.write(&mut bytes),
        }
    }
    bytes
}

/// What a tick's number shows.
pub const SENDERS: u8 = 0x0F;
pub const TAKEN: [u8; 2] = [0x10, 0x20];
pub const SENDS: [u8; 2] = [0x40, 0x80];
