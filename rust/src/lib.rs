//! Ninelace from Rust: coin selection for Bitcoin wallets, by a library that is proved.
//!
//! Each function does one command of the program on bytes, and returns what that printed, its log and its packed job, with the code
//! that it ended with. A call keeps nothing, and any number of threads may call at once. Give a thread that calls 1 MiB of stack.
//!
//! ```no_run
//! # let (wallet, blocks, request) = (Vec::new(), Vec::new(), Vec::new());
//! let answer = ninelace::fund(&wallet, &blocks, &request);
//! if answer.code == ninelace::Code::Done {
//!     println!("{}", String::from_utf8_lossy(&answer.printed));
//! }
//! ```

mod sys;

use sys::Sizes;

/// How a call ended: as the command of that name does, or in a way of the library's own.
#[derive(Clone, Copy, Debug, PartialEq, Eq)]
#[repr(u8)]
pub enum Code {
    /// Funded, listed, accepted, settled or summed up.
    Done = 0,
    /// The number or the count of a workload is out of range.
    Usage = 2,
    /// A rule of the wallet, the blocks, the request or the transaction is broken: a fault line is printed.
    Input = 3,
    /// There was not enough memory.
    Memory = 7,
    /// The job is refused: a fault line is printed.
    Saved = 8,
    /// A limit is exceeded: a fault line is printed.
    Limit = 9,
    /// The tries are used up: the answer has the job to go on with.
    Unfinished = 10,
    /// Nothing pays, which the log proves.
    NoSelection = 11,
    /// The report or its log isn't accepted: the first broken rule is printed.
    Refused = 12,
    /// The transaction doesn't settle the payment: the first broken rule is printed.
    Unsettled = 13,
    /// The bytes that were given as a job are no packed job.
    NoJob = 21,
}

/// What a call came to.
#[derive(Clone, Debug, PartialEq, Eq)]
pub struct Answer {
    /// How it ended.
    pub code: Code,
    /// What the command prints: a report, a listing, a summary or a fault line.
    pub printed: Vec<u8>,
    /// The log; none where the command wrote none.
    pub log: Vec<u8>,
    /// The packed job of an unfinished run; otherwise none.
    pub job: Vec<u8>,
}

fn code_of(code: u8) -> Code {
    match code {
        0 => Code::Done,
        2 => Code::Usage,
        3 => Code::Input,
        7 => Code::Memory,
        8 => Code::Saved,
        9 => Code::Limit,
        10 => Code::Unfinished,
        11 => Code::NoSelection,
        12 => Code::Refused,
        13 => Code::Unsettled,
        21 => Code::NoJob,
        other => unreachable!("libninelace returned {other}"),
    }
}

/// Calls until the buffer is long enough.
fn told(mut call: impl FnMut(&mut [u8], &mut Sizes) -> u8) -> Answer {
    let mut into = vec![0; 65_536];
    let mut sizes = Sizes::default();
    loop {
        let code = call(&mut into, &mut sizes);
        let log_at = sizes.printed;
        let job_at = log_at + sizes.log;
        let end = job_at + sizes.job;
        if code == sys::SHORT {
            into.resize(end, 0);
            continue;
        }
        return Answer {
            code: code_of(code),
            printed: into[..log_at].to_vec(),
            log: into[log_at..job_at].to_vec(),
            job: into[job_at..end].to_vec(),
        };
    }
}

/// A call of these byte strings. Slices are never null, and a buffer and sizes that are lent exclusively overlap with nothing.
macro_rules! call {
    ($function:ident, $($bytes:ident),+) => {
        told(|into, sizes| unsafe {
            sys::$function($($bytes.as_ptr(), $bytes.len(),)+ into.as_mut_ptr(), into.len(), sizes)
        })
    };
}

/// The version of the library's interface. This crate is for version 1.
pub fn abi_version() -> u32 {
    unsafe { sys::ninelace_abi_version() }
}

/// Lists the payments and the coins of a wallet on its blocks, as `coins`.
pub fn coins(wallet: &[u8], blocks: &[u8]) -> Answer {
    call!(ninelace_coins, wallet, blocks)
}

/// Funds the payment of a request, as `fund` with a job.
pub fn fund(wallet: &[u8], blocks: &[u8], request: &[u8]) -> Answer {
    call!(ninelace_fund, wallet, blocks, request)
}

/// Goes on with the packed job of an unfinished run of the same wallet, blocks and request, as `resume`.
pub fn resume(wallet: &[u8], blocks: &[u8], request: &[u8], job: &[u8]) -> Answer {
    call!(ninelace_resume, wallet, blocks, request, job)
}

/// Funds the payment of a request without change by the wide search, as `wide`.
pub fn wide(wallet: &[u8], blocks: &[u8], request: &[u8]) -> Answer {
    call!(ninelace_wide, wallet, blocks, request)
}

/// Funds the payment of a request so that its recipients bear the fee, as `share`.
pub fn share(wallet: &[u8], blocks: &[u8], request: &[u8]) -> Answer {
    call!(ninelace_share, wallet, blocks, request)
}

/// Pays all coins to the one recipient of a request, as `sweep`.
pub fn sweep(wallet: &[u8], blocks: &[u8], request: &[u8]) -> Answer {
    call!(ninelace_sweep, wallet, blocks, request)
}

/// Checks a report with its log, as `check`.
pub fn check(wallet: &[u8], blocks: &[u8], request: &[u8], report: &[u8], log: &[u8]) -> Answer {
    call!(ninelace_check, wallet, blocks, request, report, log)
}

/// Tells whether a signed transaction, in hex, is the payment of a report and pays the request's rate, as `settle`.
pub fn settle(wallet: &[u8], request: &[u8], report: &[u8], tx: &[u8]) -> Answer {
    call!(ninelace_settle, wallet, request, report, tx)
}

/// Funds a payment from the workload of a number and a count of coins, and sums it up, as `work`.
pub fn work(number: u64, count: u32) -> Answer {
    told(|into, sizes| unsafe {
        sys::ninelace_work(number, count, into.as_mut_ptr(), into.len(), sizes)
    })
}
