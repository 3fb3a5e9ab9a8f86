/*
 * capcheck_recorder.h: records a run log (docs/RUNS.md) of an emulator, a simulator or a core, and may judge it at once.
 * docs/RECORDING.md has the call for each instruction of CHERI-RISC-V.
 *
 * Link with libcapcheck_recorder.a, libcapcheck_judge.a and libcapcheck_c.a, in this order. The recorder isn't proved: it
 * checks nothing of a result, and writes what the emulator says. The proved judge finds what is wrong.
 *
 *   capcheck_recorder_did     an instruction that is one of the twelve steps: the line has its own operands, so any wrong
 *                             result is refused
 *   capcheck_recorder_wrote   an instruction without a step of its own: a result that is no wider than its source passes
 *
 * The arguments are in the order of the line: what is written, what is read, and the values that were written. Give the
 * capability that the machine really wrote, with its tag and all 128 bits.
 *
 * The recorder keeps what the model, the machine on which the log is judged, holds in its registers. If an integer overwrites
 * a register with a tagged capability, a `drop` takes that tag. The integer itself becomes a line once a later line reads the
 * register.
 *
 * Each call returns whether the recording goes on. If it returns false, `error` says why and `state` is one of
 *   CAPCHECK_NO          the judge refused a line; `error` is its verdict. The file has this line too
 *   CAPCHECK_NO_MEMORY   the judge is out of memory: free some and call capcheck_recorder_again, and nothing is lost
 *   CAPCHECK_NO_JUDGE    the judge isn't open
 *   CAPCHECK_NO_LINE     a number is out of range, a line can't be written, or there is no such call now. The call passed
 *                        on no line, unless a line can't be written
 * Later calls pass on nothing, and return false too.
 */
#ifndef CAPCHECK_RECORDER_H
#define CAPCHECK_RECORDER_H

#include "capcheck_judge.h"

#ifdef __cplusplus
extern "C" {
#endif

/* Takes a line, which has its line feed. Returns whether it was written. `to` is what the caller of the recorder gave. */
typedef bool (*capcheck_recorder_write)(void *to, const char *line, size_t length);

/* What the model holds in the registers of a hart. All is private to the library; all bytes are 0 before its first use in a
 * recording. */
typedef struct capcheck_recorder_registers {
    uint64_t integers[32];
    capcheck_cap logged[64];
    uint32_t unread;
    uint8_t begun;
} capcheck_recorder_registers;

/* A recorder. Set `spare` after capcheck_recorder_start if the program leaves a register alone. The fields from `phase` on
 * are private to the library. */
typedef struct capcheck_recorder {
    char error[192]; /* why the recording doesn't go on; empty if it does */
    uint64_t lines;  /* how many lines were passed on, which is the number of the last one */
    uint64_t spare;  /* a register that the program doesn't use, 1 to 31, for accesses through special registers and beyond
                        offsets of 12 bits; 0 for none */
    uint8_t state;   /* enum capcheck_state: CAPCHECK_GOES_ON, or as above */
    uint8_t phase;
    uint64_t steps;
    uint64_t hart;
    capcheck_recorder_registers first;
    capcheck_recorder_registers *others;
    capcheck_run_judge *judge;
    capcheck_recorder_write write;
    void *to;
    size_t waiting;
    char queue[7][CAPCHECK_LINE_SIZE];
} capcheck_recorder;

/* ---- Places ---- */

/* Return the register cN, 0 to 31; the special register scrN; the granule at an address; and no place. */
capcheck_place capcheck_c(uint64_t number);
capcheck_place capcheck_scr(uint64_t number);
capcheck_place capcheck_granule(uint64_t address);
capcheck_place capcheck_nowhere(void);

/* ---- A log's beginning and end ---- */

/* Begins a log in a mode: strict if `clear` is 0, and then an instruction that fails a check traps; else clear. Each line
 * is passed to the judge, which is open and has no lines yet, and then to `write`, with `to`; one of the two may be null.
 * The recorder may hold anything before this call. */
CAPCHECK_CHECKED
bool capcheck_recorder_start(capcheck_recorder *r, capcheck_run_judge *judge, capcheck_recorder_write write, void *to,
                             uint8_t clear);

/* Writes a line into a FILE, to which `file` points: what `write` may be. */
bool capcheck_recorder_to_file(void *file, const char *line, size_t length);

/* A root, before the first step: a tagged capability in a register, a special register or a granule. */
CAPCHECK_CHECKED
bool capcheck_recorder_root(capcheck_recorder *r, capcheck_place place, capcheck_word word);

/* The end line. No call may follow. */
CAPCHECK_CHECKED
bool capcheck_recorder_end(capcheck_recorder *r);

/* After CAPCHECK_NO_MEMORY: passes the line again, and what follows it of the same call. */
CAPCHECK_CHECKED
bool capcheck_recorder_again(capcheck_recorder *r);

/* ---- Harts ---- */

/* Names the hart, 0 to 65,535, whose registers the calls from now on mean, roots too: at first hart 0. `registers` is memory for
 * what the model holds in them, the same at each call for this hart, which the recorder uses until the end; for hart 0, whose
 * registers it holds itself, it isn't looked at. A program's recorder takes a hart for each thread. */
CAPCHECK_CHECKED
bool capcheck_recorder_hart(capcheck_recorder *r, uint64_t hart, capcheck_recorder_registers *registers);

/* The current hart's thread ended: a `drop` for each of its registers that holds a tag. Without it, what they hold stays held. */
CAPCHECK_CHECKED
bool capcheck_recorder_thread_ended(capcheck_recorder *r);

/* ---- Registers ---- */

/* An instruction did a step, CAPCHECK_KIND_MOVE to CAPCHECK_KIND_UNSEAL. `other` is the authority of a seal or an unseal,
 * and `number` the length, address or mask, as the instruction had it; a kind that has none ignores it. What an instruction
 * writes into c0 has no line. */
CAPCHECK_CHECKED
bool capcheck_recorder_did(capcheck_recorder *r, uint8_t kind, uint64_t target, uint64_t source, uint64_t other, uint64_t number,
                           capcheck_cap value);

/* An instruction without a step of its own wrote a register, from another: `derive`. Each is CAPCHECK_REGISTER or
 * CAPCHECK_SPECIAL. The source is the one that gives bounds and permissions, c0 if none does. */
CAPCHECK_CHECKED
bool capcheck_recorder_wrote(capcheck_recorder *r, capcheck_place target, capcheck_place source, capcheck_cap value);

/* An integer overwrote a register: NULL with the integer as its address. */
CAPCHECK_CHECKED
bool capcheck_recorder_overwrote(capcheck_recorder *r, uint64_t target, uint64_t integer);

/* The tag of a register, a special register or a granule went: a revoker's work. */
CAPCHECK_CHECKED
bool capcheck_recorder_dropped(capcheck_recorder *r, capcheck_place place);

/* ---- Calls, traps, special registers ---- */

/* CJALR and CSpecialRW: the target got `value` from a special register, and that got `special_value` from the source. A jump
 * that links nothing has the target 0, and a CSpecialRW that only reads the source capcheck_nowhere(). */
CAPCHECK_CHECKED
bool capcheck_recorder_exchanged(capcheck_recorder *r, uint64_t target, capcheck_place source, uint64_t special,
                                 capcheck_cap value, capcheck_cap special_value);

/* CInvoke: PCC and c31 got the words of the registers that were invoked, without their seals. */
CAPCHECK_CHECKED
bool capcheck_recorder_invoked(capcheck_recorder *r, uint64_t code, uint64_t datum, capcheck_word code_word,
                               capcheck_word datum_word);

/* A trap: the special register `saved` got `saved_value` from PCC, and PCC got `pcc` from the special register `vector`. The
 * return from a trap: `saved` is capcheck_nowhere(), and `vector` the register that was saved to. */
CAPCHECK_CHECKED
bool capcheck_recorder_trapped(capcheck_recorder *r, capcheck_place saved, capcheck_cap saved_value, uint64_t vector,
                               capcheck_cap pcc);

/* ---- Memory ---- */

/* An access is at the authority's address plus an offset. The authority is a register or a special register. If no line can
 * say the access, it goes through the spare register, which has no tag afterwards. If the authority can't have the address
 * of the access, the spare register gets it without a tag, and the judge refuses the access. */

/* LC and SC. The value is the one after the check of Load Capability. An LC into c0 becomes two loads of 8 bytes, so nothing
 * is asked of its alignment to 16; its value is what another register would have got. */
CAPCHECK_CHECKED
bool capcheck_recorder_loaded_cap(capcheck_recorder *r, uint64_t target, capcheck_place authority, int64_t offset,
                                  capcheck_cap value);
CAPCHECK_CHECKED
bool capcheck_recorder_stored_cap(capcheck_recorder *r, uint64_t source, capcheck_place authority, int64_t offset);

/* Loads and stores of data, of 1, 2, 4 or 8 bytes: a number of that many bytes, as memory has it. */
CAPCHECK_CHECKED
bool capcheck_recorder_loaded(capcheck_recorder *r, capcheck_place authority, int64_t offset, uint64_t size, uint64_t value);
CAPCHECK_CHECKED
bool capcheck_recorder_stored(capcheck_recorder *r, capcheck_place authority, int64_t offset, uint64_t size, uint64_t value);

/* A kernel or a device wrote into the granule at an address, a multiple of 16: its sixteen bytes now. */
CAPCHECK_CHECKED
bool capcheck_recorder_filled(capcheck_recorder *r, uint64_t address, const uint8_t bytes[16]);

/* ---- Objects ---- */

/* What a register, 1 to 31, holds is a new object's if `object` is 0, or also that of the object with this number. */
CAPCHECK_CHECKED
bool capcheck_recorder_object(capcheck_recorder *r, uint64_t source, uint64_t object);

/* The object that owns a register is freed if `object` is 0. Otherwise the object with this number is, and the register has
 * to be 0. */
CAPCHECK_CHECKED
bool capcheck_recorder_freed(capcheck_recorder *r, uint64_t source, uint64_t object);

/* ---- Lines of your own ---- */

/* Records a step by its line, as a capcheck_line_ call wrote it. Integers in the registers that it reads are told before. */
CAPCHECK_CHECKED
bool capcheck_recorder_line(capcheck_recorder *r, const char *line, size_t length);

#ifdef __cplusplus
}
#endif

#endif
