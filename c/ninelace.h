/* Ninelace: the funding half of a watch-only Bitcoin wallet, as a library.
 *
 * Each call does one command of the program on the bytes that it is lent. It opens no file, keeps nothing between two calls,
 * starts no thread and reads no clock, so the same bytes give the same answer. Any number of threads may call at once, each with
 * a buffer of its own. A call takes memory from malloc while it runs, and has freed all of it when it returns.
 *
 * What goes in: each input is a pointer and its number of bytes, as the command's file of that name would hold them: a wallet
 * (JSON), blocks (as Bitcoin Core's blk*.dat), a request (JSON), a report, a log, a signed transaction in hex.
 *
 * What comes out: the parts of the answer stand one after the other at the front of `into`: what the command prints, then the log
 * that it writes, then the packed job. `sizes` tells how many bytes each part has. The result is a code: the status that the
 * command ends with, or one of two that no command ends with.
 *
 * Where `into` is too short the code is NINELACE_SHORT: nothing is written, and `sizes` tells what is needed. Make the buffer as
 * long as the sum of the three and call again with the same bytes. 64 KiB holds most answers; a log has at most 64 MiB.
 *
 * A call that takes long can't be stopped from outside. Give requests few `tries` with `when_unfinished` `stop`, and go on with
 * ninelace_resume.
 *
 * The caller must, since nothing can check it:
 * - give pointers that aren't null, also at length 0, to as many bytes as it says;
 * - let `into`, `sizes` and the inputs not overlap;
 * - let nothing write to the inputs, nor touch `into` and `sizes`, while the call runs;
 * - give the calling thread a stack of 1 MiB, of which a call takes some 100 KiB: no proof bounds it;
 * - not call from a signal handler, nor in the forked child of a process with threads.
 */
#ifndef NINELACE_H
#define NINELACE_H

#include <stddef.h>
#include <stdint.h>

#ifdef __cplusplus
extern "C" {
#endif

/* The version of this interface. A call that is added leaves it; a call that changes raises it or gets a new name. */
#define NINELACE_ABI_VERSION 1u

/* What a call returns. All but NINELACE_SHORT and NINELACE_NO_JOB are statuses of commands; 4, 5 and 6 never come. */
enum {
    NINELACE_DONE = 0,        /* funded, listed, accepted, settled or summed up */
    NINELACE_USAGE = 2,       /* ninelace_work alone: its number or count is out of range */
    NINELACE_INPUT = 3,       /* a rule of the wallet, the blocks or the request is broken: a fault line is printed */
    NINELACE_MEMORY = 7,      /* malloc had no memory: `into` is as before, and all sizes are 0 */
    NINELACE_SAVED = 8,       /* the job is refused: a fault line is printed */
    NINELACE_LIMIT = 9,       /* a limit is exceeded: a fault line is printed */
    NINELACE_UNFINISHED = 10, /* the tries are used up: the report is printed, and `job` is what to go on with */
    NINELACE_NONE = 11,       /* nothing pays: the report is printed, and the log proves it */
    NINELACE_REFUSED = 12,    /* the report or its log isn't accepted: the first broken rule is printed */
    NINELACE_UNSETTLED = 13,  /* the transaction doesn't settle the payment: the first broken rule is printed */
    NINELACE_SHORT = 20,      /* `into` is too short: `sizes` tells what is needed, and `into` is as before */
    NINELACE_NO_JOB = 21      /* the bytes given as a job are no packed job: `into` is as before, and all sizes are 0 */
};

/* How many bytes the parts of an answer have, in the order in which they stand in the buffer. */
typedef struct {
    size_t printed; /* a report, a listing, a summary or a fault line */
    size_t log;     /* the log; 0 where the command wrote none */
    size_t job;     /* the packed job; 0 but with NINELACE_UNFINISHED of ninelace_fund and ninelace_resume */
} ninelace_sizes;

/* The version of this interface. A program that was compiled for another one must make no other call. */
uint32_t ninelace_abi_version(void);

/* Lists the payments and the coins of a wallet on its blocks, as `coins`. */
uint8_t ninelace_coins(const uint8_t *wallet, size_t wallet_len, const uint8_t *blocks, size_t blocks_len,
                       uint8_t *into, size_t into_len, ninelace_sizes *sizes);

/* Funds the payment of a request, as `fund`. */
uint8_t ninelace_fund(const uint8_t *wallet, size_t wallet_len, const uint8_t *blocks, size_t blocks_len,
                      const uint8_t *request, size_t request_len,
                      uint8_t *into, size_t into_len, ninelace_sizes *sizes);

/* Goes on with a packed job that ninelace_fund or ninelace_resume gave for the same wallet, blocks and request, as `resume`. */
uint8_t ninelace_resume(const uint8_t *wallet, size_t wallet_len, const uint8_t *blocks, size_t blocks_len,
                        const uint8_t *request, size_t request_len, const uint8_t *job, size_t job_len,
                        uint8_t *into, size_t into_len, ninelace_sizes *sizes);

/* Funds the payment of a request without change by the wide search, as `wide`. */
uint8_t ninelace_wide(const uint8_t *wallet, size_t wallet_len, const uint8_t *blocks, size_t blocks_len,
                      const uint8_t *request, size_t request_len,
                      uint8_t *into, size_t into_len, ninelace_sizes *sizes);

/* Funds the payment of a request so that its recipients bear the fee, as `share`. */
uint8_t ninelace_share(const uint8_t *wallet, size_t wallet_len, const uint8_t *blocks, size_t blocks_len,
                       const uint8_t *request, size_t request_len,
                       uint8_t *into, size_t into_len, ninelace_sizes *sizes);

/* Pays all coins to the one recipient of a request, as `sweep`. */
uint8_t ninelace_sweep(const uint8_t *wallet, size_t wallet_len, const uint8_t *blocks, size_t blocks_len,
                       const uint8_t *request, size_t request_len,
                       uint8_t *into, size_t into_len, ninelace_sizes *sizes);

/* Checks a report with its log, which may have 0 bytes where the report has none, as `check`. */
uint8_t ninelace_check(const uint8_t *wallet, size_t wallet_len, const uint8_t *blocks, size_t blocks_len,
                       const uint8_t *request, size_t request_len, const uint8_t *report, size_t report_len,
                       const uint8_t *log, size_t log_len,
                       uint8_t *into, size_t into_len, ninelace_sizes *sizes);

/* Tells whether a signed transaction, in hex, is the payment of a report and pays the request's rate, as `settle`. */
uint8_t ninelace_settle(const uint8_t *wallet, size_t wallet_len, const uint8_t *request, size_t request_len,
                        const uint8_t *report, size_t report_len, const uint8_t *tx, size_t tx_len,
                        uint8_t *into, size_t into_len, ninelace_sizes *sizes);

/* Funds a payment from the workload of a number (at most 9,223,372,036,854,775,807) and a count of coins (1 to 10,000), and sums
 * it up, as `work`. */
uint8_t ninelace_work(uint64_t number, uint32_t count, uint8_t *into, size_t into_len, ninelace_sizes *sizes);

#ifdef __cplusplus
}
#endif

#endif
