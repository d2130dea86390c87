//! Names: two or three words of the trade together, so that none is a keyword.

use crate::random::Random;

const WORDS: [&str; 48] = [
    "Account", "Address", "Admin", "Alarm", "Batch", "Binding", "Buffer", "Cargo", "Channel", "Client", "Config",
    "Counter", "Device", "Domain", "Event", "Filter", "Group", "Handle", "Index", "Item", "Key", "Ledger", "Level",
    "Link", "Log", "Market", "Name", "Node", "Offer", "Order", "Parcel", "Policy", "Price", "Proxy", "Query", "Queue",
    "Range", "Record", "Route", "Scan", "Sensor", "Shelf", "State", "Stock", "Ticket", "Trader", "Unit", "Vehicle",
];

/// Short names of members and parameters.
const SHORT: [&str; 24] = [
    "a", "b", "id", "key", "n", "x", "y", "z", "lat", "lon", "name", "how", "who", "it", "seq", "val", "max", "min",
    "ttl", "pos", "qty", "ref", "len", "t",
];

fn word(random: &mut Random) -> &'static str {
    random.pick::<&str>(&WORDS)
}

/// As `BindingOffer` or `AlarmQueueState`.
pub fn type_name(random: &mut Random) -> String {
    let third = if random.once_in(3) { word(random) } else { "" };
    format!("{}{}{third}", word(random), word(random))
}

/// As `binding_offer`.
pub fn member_name(random: &mut Random) -> String {
    format!("{}_{}", word(random), word(random)).to_lowercase()
}

/// As `ALARM_QUEUE`.
pub fn constant_name(random: &mut Random) -> String {
    format!("{}_{}", word(random), word(random)).to_uppercase()
}

pub fn short_name(random: &mut Random) -> String {
    random.pick(&SHORT).to_string()
}

const BASIC: [&str; 14] = [
    "long",
    "short",
    "unsigned long",
    "unsigned short",
    "long long",
    "unsigned long long",
    "double",
    "float",
    "boolean",
    "octet",
    "char",
    "string",
    "wstring",
    "any",
];

pub fn basic_type(random: &mut Random) -> String {
    random.pick(&BASIC).to_string()
}
