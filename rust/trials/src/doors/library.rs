//! The functions of include/cabinet.h in the static library that `cabinet` links.

pub use cabinet::ffi;

use super::{Call, Lent, Told};

pub fn library(call: Call, lent: &mut Lent) -> Told {
    let Lent { table, state, releases, entries, order, bytes } = lent;
    match call {
        Call::CheckTable => ffi::check_table(table).into(),
        Call::FreshCommon => ffi::fresh_common(state).into(),
        Call::FreshNode { number } => ffi::fresh_node(table, state, number).into(),
        Call::Start { now } => ffi::start(table, state, now).into(),
        Call::Finish { now } => ffi::finish(table, state, now).into(),
        Call::Report { r } => ffi::report(table, state, r).into(),
        Call::Close { r } => ffi::close(table, state, r, releases, entries).into(),
        Call::CloseStation { r } => ffi::close_station(table, state, r, releases, entries).into(),
        Call::Projection { position } => ffi::projection(table, state, position).into(),
        Call::Bound { position, time } => ffi::bound(table, state, position, time).into(),
        Call::Order => ffi::order(table, state, order).into(),
        Call::ReadNumber => ffi::read_number(bytes).into(),
        Call::WriteNumber { number } => ffi::write_number(bytes, number).into(),
        Call::ReadTable => ffi::read_table(bytes, table).into(),
        Call::ReadRecord => ffi::read_record(bytes, releases, entries).into(),
        Call::WriteRecord { r } => ffi::write_record(bytes, r, releases, entries).into(),
    }
}

impl From<ffi::Reply> for Told {
    fn from(reply: ffi::Reply) -> Told {
        Told::Value { refusal: reply.refusal, value: reply.value }
    }
}

impl From<ffi::NumberReply> for Told {
    fn from(reply: ffi::NumberReply) -> Told {
        let ffi::NumberReply { refusal, value, used } = reply;
        Told::Number { refusal, value, used }
    }
}

impl From<ffi::ReportReply> for Told {
    fn from(reply: ffi::ReportReply) -> Told {
        let ffi::ReportReply { refusal, progress, completed, run } = reply;
        Told::Report { refusal, progress, completed, run }
    }
}

impl From<ffi::CloseReply> for Told {
    fn from(reply: ffi::CloseReply) -> Told {
        let ffi::CloseReply { refusal, back, majority, left, classes } = reply;
        Told::Closing { refusal, back, majority, left, classes }
    }
}

impl From<ffi::RecordReply> for Told {
    fn from(reply: ffi::RecordReply) -> Told {
        let ffi::RecordReply { refusal, time, releases, entries, used } = reply;
        Told::Record { refusal, time, releases, entries, used }
    }
}
