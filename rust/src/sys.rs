//! The declarations of c/ninelace.h.

/// `into` is too short.
pub const SHORT: u8 = 20;

/// How many bytes the parts of an answer have.
#[repr(C)]
#[derive(Default)]
pub struct Sizes {
    pub printed: usize,
    pub log: usize,
    pub job: usize,
}

macro_rules! exports {
    ($($name:ident($($bytes:ident, $len:ident),+);)+) => {
        unsafe extern "C" {
            $(pub fn $name($($bytes: *const u8, $len: usize,)+ into: *mut u8, into_len: usize, sizes: *mut Sizes) -> u8;)+
        }
    };
}

exports! {
    ninelace_coins(wallet, wallet_len, blocks, blocks_len);
    ninelace_fund(wallet, wallet_len, blocks, blocks_len, request, request_len);
    ninelace_resume(wallet, wallet_len, blocks, blocks_len, request, request_len, job, job_len);
    ninelace_wide(wallet, wallet_len, blocks, blocks_len, request, request_len);
    ninelace_share(wallet, wallet_len, blocks, blocks_len, request, request_len);
    ninelace_sweep(wallet, wallet_len, blocks, blocks_len, request, request_len);
    ninelace_check(wallet, wallet_len, blocks, blocks_len, request, request_len, report, report_len, log, log_len);
    ninelace_settle(wallet, wallet_len, request, request_len, report, report_len, tx, tx_len);
}

unsafe extern "C" {
    pub fn ninelace_abi_version() -> u32;
    pub fn ninelace_work(number: u64, count: u32, into: *mut u8, into_len: usize, sizes: *mut Sizes) -> u8;
}
