//! Every outward call as a value, to be put to the built library and to the model alike.

use crate::calls::{Call, Inputs, ENGINE, MODEL};
use crate::engine;
use crate::model::sheet::Head;
use crate::model::{
    asks, block_list, calls, desk, ending, outage, page, report, shrink, timelocks,
};
use crate::random::Case;
use crate::slack::row as slack;

/// More bytes than any call writes.
const AMPLE: usize = 4_096;

/// A call beside sheet, setup and journal. The desk takes its bundle in the place of setup and journal; commit takes
/// its journal from the buffer that it is lent.
#[derive(Clone, Debug)]
pub enum Request {
    Four(Call),
    Page,
    Outage {
        blocks: u32,
    },
    Slack,
    Timelocks {
        base: u32,
    },
    Desk {
        bundle: Vec<u8>,
    },
    Blocks {
        list: Vec<u8>,
    },
    Earliest {
        mask: u32,
        dests: Vec<u8>,
    },
    Ask {
        step: Vec<u8>,
    },
    Commit {
        step: Vec<u8>,
        count: u32,
        size: u32,
    },
    Shrink,
}

/// All calls of one version: the number that C gets, and what is left in the buffer.
pub type Version = fn(&Request, &Inputs, &mut [u8]) -> u32;

/// The built library.
pub fn by_library(request: &Request, inputs: &Inputs, output: &mut [u8]) -> u32 {
    let Inputs {
        sheet,
        setup,
        journal,
    } = *inputs;
    match request {
        Request::Four(call) => ENGINE.answer(*call, inputs, output),
        Request::Page => engine::page(sheet, setup, journal, output),
        Request::Outage { blocks } => engine::outage(sheet, setup, journal, *blocks, output),
        Request::Slack => engine::slack(sheet, setup, journal, output),
        Request::Timelocks { base } => engine::timelocks(sheet, setup, *base, output),
        Request::Desk { bundle } => engine::desk(sheet, bundle, output),
        Request::Blocks { list } => engine::blocks(sheet, setup, list),
        Request::Earliest { mask, dests } => engine::earliest(sheet, setup, *mask, dests, output),
        Request::Ask { step } => engine::ask(sheet, setup, journal, step),
        Request::Commit { step, count, size } => {
            engine::commit(sheet, setup, step, *count, output, *size)
        }
        Request::Shrink => engine::shrink(sheet, setup, journal, output),
    }
}

/// The model.
pub fn by_model(request: &Request, inputs: &Inputs, output: &mut [u8]) -> u32 {
    let Inputs {
        sheet,
        setup,
        journal,
    } = *inputs;
    match request {
        Request::Four(call) => MODEL.answer(*call, inputs, output),
        Request::Page => page::page_number(sheet, setup, journal, output),
        Request::Outage { blocks } => calls::outage_number(sheet, setup, journal, *blocks, output),
        Request::Slack => slack::number(sheet, setup, journal, output),
        Request::Timelocks { base } => timelocks::number(sheet, setup, *base, output),
        Request::Desk { bundle } => desk::desk_number(sheet, bundle, output),
        Request::Blocks { list } => block_list::check_number(sheet, setup, list),
        Request::Earliest { mask, dests } => {
            ending::write_number(sheet, setup, *mask, dests, output)
        }
        Request::Ask { step } => asks::ask_number(sheet, setup, journal, step),
        Request::Commit { step, count, size } => {
            asks::commit_number(sheet, setup, step, *count, output, *size)
        }
        Request::Shrink => shrink::number(sheet, setup, journal, output),
    }
}

impl Request {
    /// The call's name.
    pub fn name(&self) -> &'static str {
        match self {
            Request::Four(Call::Check) => "check",
            Request::Four(Call::Run) => "run",
            Request::Four(Call::List) => "list",
            Request::Four(Call::Report) => "report",
            Request::Page => "page",
            Request::Outage { .. } => "outage",
            Request::Slack => "slack",
            Request::Timelocks { .. } => "timelocks",
            Request::Desk { .. } => "desk",
            Request::Blocks { .. } => "blocks",
            Request::Earliest { .. } => "earliest",
            Request::Ask { .. } => "ask",
            Request::Commit { .. } => "commit",
            Request::Shrink => "shrink",
        }
    }

    /// The buffer before the call: commit's has the journal first; any other has these bytes alone.
    pub fn buffer(&self, (_, _, journal): &Case, room: Vec<u8>) -> Vec<u8> {
        match self {
            Request::Commit { .. } => [&journal[..], &room].concat(),
            _ => room,
        }
    }

    /// The bytes that the model writes to an ample buffer; 16 where it refuses.
    pub fn needed(&self, case: &Case) -> usize {
        let mut output = self.buffer(case, vec![0; AMPLE]);
        let answer = by_model(self, &Inputs::of(case), &mut output);
        let head = Head::of(&case.0);
        let n = usize::from(head.count);
        match (self, answer >> 16) {
            (_, 1..) => 16,
            (Request::Four(Call::List) | Request::Earliest { .. } | Request::Shrink, _) => {
                4 * answer as usize
            }
            (Request::Four(Call::Report), _) => report::ROW * n,
            (Request::Page, _) => page::LINE * (n + 1),
            (Request::Outage { .. }, _) => outage::ROW * n,
            (Request::Slack, _) => slack::ROW * head.parties.len(),
            (Request::Timelocks { .. }, _) => 8 * n,
            (Request::Desk { bundle }, _) => 8 * usize::from(bundle[0]),
            (Request::Commit { .. }, _) => 4,
            _ => 0,
        }
    }
}
