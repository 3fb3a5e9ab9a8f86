/*
 * The recorder of capcheck_recorder.h. Each call queues all its lines before it passes on the first, so a call with a number
 * out of range passes on none, and one that runs out of memory goes on where it stopped. This file is not proved.
 */
#include <capcheck_recorder.h>

#include <stdarg.h>
#include <stdio.h>
#include <string.h>

/* The phases of a recording: a recorder whose bytes are all 0 has none. */
enum { ROOTS = 1, STEPS = 2, ENDED = 3 };

static capcheck_place place_of(uint8_t kind, uint64_t number) {
    capcheck_place made;
    made.number = number;
    made.kind = kind;
    return made;
}

capcheck_place capcheck_c(uint64_t number) { return place_of(CAPCHECK_REGISTER, number); }
capcheck_place capcheck_scr(uint64_t number) { return place_of(CAPCHECK_SPECIAL, number); }
capcheck_place capcheck_granule(uint64_t address) { return place_of(CAPCHECK_GRANULE, address); }
capcheck_place capcheck_nowhere(void) { return place_of(CAPCHECK_NO_PLACE, 0); }

bool capcheck_recorder_to_file(void *file, const char *line, size_t length) {
    return fwrite(line, 1, length, (FILE *)file) == length;
}

/* ---- Failures ---- */

/* Ends the recording for a reason, unless it has ended. */
static bool stop(capcheck_recorder *r, uint8_t state, const char *form, ...) {
    va_list words;
    if (r->state != CAPCHECK_GOES_ON)
        return false;
    va_start(words, form);
    vsnprintf(r->error, sizeof r->error, form, words);
    va_end(words);
    r->state = state;
    return false;
}

/* Whether the recording goes on. */
static bool goes_on(capcheck_recorder *r) {
    if (r->phase == 0)
        return stop(r, CAPCHECK_NO_LINE, "the recording hasn't begun");
    if (r->phase == ENDED)
        return stop(r, CAPCHECK_NO_LINE, "the log has ended");
    return r->state == CAPCHECK_GOES_ON;
}

/* Whether it goes on and a number is that of a register which the program may use, from the least on. */
static bool is_register(capcheck_recorder *r, const char *what, uint64_t number, unsigned least) {
    if (!goes_on(r))
        return false;
    if (number < least || number > 31)
        return stop(r, CAPCHECK_NO_LINE, "the %s is c%llu: the registers are c%u to c31", what, (unsigned long long)number, least);
    if (r->spare != 0 && number == r->spare)
        return stop(r, CAPCHECK_NO_LINE, "the %s is c%u, which is the spare register", what, (unsigned)number);
    return true;
}

static bool is_special(capcheck_recorder *r, const char *what, uint64_t number) {
    if (goes_on(r) && number > 31)
        return stop(r, CAPCHECK_NO_LINE, "the %s is scr%llu: the special registers are scr0 to scr31", what, (unsigned long long)number);
    return r->state == CAPCHECK_GOES_ON;
}

/* The same of a register or a special register. */
static bool is_either(capcheck_recorder *r, const char *what, capcheck_place place) {
    if (place.kind == CAPCHECK_REGISTER)
        return is_register(r, what, place.number, 0);
    if (place.kind == CAPCHECK_SPECIAL)
        return is_special(r, what, place.number);
    return goes_on(r) && stop(r, CAPCHECK_NO_LINE, "the %s is neither a register nor a special register", what);
}

static bool is_granule(capcheck_recorder *r, uint64_t address) {
    if (goes_on(r) && address % 16 != 0)
        return stop(r, CAPCHECK_NO_LINE, "the granule's address %llx isn't a multiple of 16", (unsigned long long)address);
    return r->state == CAPCHECK_GOES_ON;
}

/* The same of any place, of which c0 is none. */
static bool is_place(capcheck_recorder *r, capcheck_place place) {
    switch (place.kind) {
    case CAPCHECK_REGISTER: return is_register(r, "place", place.number, 1);
    case CAPCHECK_SPECIAL: return is_special(r, "place", place.number);
    case CAPCHECK_GRANULE: return is_granule(r, place.number);
    default: return goes_on(r) && stop(r, CAPCHECK_NO_LINE, "the place is no register, special register or granule");
    }
}

/* ---- Lines ---- */

/* The registers of the current hart. */
static capcheck_recorder_registers *registers(capcheck_recorder *r) { return r->others == NULL ? &r->first : r->others; }

/* What the model holds in a register or a special register. */
static capcheck_cap *logged(capcheck_recorder *r, capcheck_place place) {
    return &registers(r)->logged[(place.number & 31) + (place.kind == CAPCHECK_SPECIAL ? 32 : 0)];
}

/* NULL in each register of a hart that has none yet. */
static void begin(capcheck_recorder_registers *it) {
    const capcheck_cap null = CAPCHECK_NULL;
    size_t index;
    for (index = 0; it->begun == 0 && index < 64; index++)
        it->logged[index] = null;
    it->begun = 1;
}

/* Notes what a register or a special register holds after a line. c0 stays NULL. */
static void hold(capcheck_recorder *r, capcheck_place place, capcheck_cap value) {
    if (place.kind != CAPCHECK_SPECIAL && (place.kind != CAPCHECK_REGISTER || place.number == 0))
        return;
    *logged(r, place) = value;
    if (place.kind == CAPCHECK_REGISTER)
        registers(r)->unread &= ~(UINT32_C(1) << (place.number & 31));
}

/* Queues a line that a call wrote; without one, a number of that call was out of range. */
static bool queue(capcheck_recorder *r, const char *line, size_t length) {
    if (length == 0)
        return stop(r, CAPCHECK_NO_LINE, "a number is out of range");
    memcpy(r->queue[r->waiting++], line, length);
    return true;
}

/* Queues the integer that overwrote a register, if no line has told it: the next line reads it. */
static void tell_integer(capcheck_recorder *r, uint64_t number) {
    capcheck_cap integer = CAPCHECK_NULL;
    char line[CAPCHECK_LINE_SIZE];
    if ((registers(r)->unread >> (number & 31) & 1) == 0)
        return;
    integer.word.low = registers(r)->integers[number & 31];
    (void)queue(r, line, capcheck_line_derive(line, capcheck_c(number), capcheck_c(0), integer));
    hold(r, capcheck_c(number), integer);
    r->steps++;
}

/* Queues a step. */
static bool step(capcheck_recorder *r, const char *line, size_t length) {
    if (!queue(r, line, length))
        return false;
    r->steps++;
    r->phase = STEPS;
    return true;
}

/* Queues a `derive`, unless it writes c0. */
static bool derive(capcheck_recorder *r, capcheck_place target, capcheck_place source, capcheck_cap value) {
    char line[CAPCHECK_LINE_SIZE];
    if (target.kind == CAPCHECK_REGISTER && target.number == 0)
        return true;
    if (source.kind == CAPCHECK_REGISTER)
        tell_integer(r, source.number);
    if (!step(r, line, capcheck_line_derive(line, target, source, value)))
        return false;
    hold(r, target, value);
    return true;
}

/* Queues a `drop`. */
static bool drop(capcheck_recorder *r, capcheck_place place) {
    char line[CAPCHECK_LINE_SIZE];
    if (!step(r, line, capcheck_line_drop(line, place)))
        return false;
    if (place.kind != CAPCHECK_GRANULE)
        logged(r, place)->tag = 0;
    return true;
}

/* Takes the verdict of the judge that refused a line. */
static void take_verdict(capcheck_recorder *r) {
    capcheck_run_answer answer = capcheck_run_judge_answer(r->judge);
    stop(r, CAPCHECK_NO, "no %llu %u %s", (unsigned long long)answer.line, (unsigned)answer.refusal,
         capcheck_refusal_text(answer.refusal));
}

/* Passes on a line: to the judge, and then to `write`. Returns whether it was passed on. */
static bool pass_line(capcheck_recorder *r, const char *line, size_t length) {
    uint8_t state = r->judge == NULL ? (uint8_t)CAPCHECK_GOES_ON : capcheck_run_judge_line(r->judge, line, length);
    if (state == CAPCHECK_NO_MEMORY)
        return stop(r, state, "out of memory: capcheck_recorder_again passes the line again");
    if (state != CAPCHECK_GOES_ON && state != CAPCHECK_NO)
        return stop(r, state, "the judge takes no line: %s", capcheck_state_text(state));
    r->lines++;
    if (state == CAPCHECK_NO)
        take_verdict(r);
    if (r->write != NULL && !r->write(r->to, line, length))
        stop(r, CAPCHECK_NO_LINE, "line %llu can't be written", (unsigned long long)r->lines);
    return true;
}

/* Passes on the lines that wait, in their order. */
static bool pass(capcheck_recorder *r) {
    size_t at = 0;
    while (at < r->waiting && r->state == CAPCHECK_GOES_ON) {
        const char *line = r->queue[at], *feed = (const char *)memchr(line, '\n', sizeof r->queue[at]);
        if (pass_line(r, line, (size_t)(feed - line) + 1))
            at++;
    }
    r->waiting -= at;
    memmove(r->queue, r->queue + at, r->waiting * sizeof r->queue[0]);
    return r->state == CAPCHECK_GOES_ON;
}

/* ---- Lines of one's own ---- */

/* Notes what a line writes. */
static void note(capcheck_recorder *r, capcheck_run_line it) {
    switch (it.line.kind) {
    case CAPCHECK_KIND_ROOT:
    case CAPCHECK_KIND_ROOT_SPECIAL:
    case CAPCHECK_KIND_DERIVE:
        hold(r, it.target, it.line.cap);
        break;
    case CAPCHECK_KIND_EXCHANGE:
        hold(r, capcheck_c(it.line.target), it.line.cap);
        hold(r, capcheck_scr(it.line.number), it.second);
        break;
    case CAPCHECK_KIND_INVOKE:
        hold(r, capcheck_scr(0), it.line.cap);
        hold(r, capcheck_c(31), it.second);
        break;
    case CAPCHECK_KIND_DROP:
        if (it.target.kind != CAPCHECK_GRANULE)
            logged(r, it.target)->tag = 0;
        break;
    default:
        if (it.line.kind >= CAPCHECK_KIND_MOVE && it.line.kind <= CAPCHECK_KIND_LC)
            hold(r, capcheck_c(it.line.target), it.line.cap);
    }
}

bool capcheck_recorder_line(capcheck_recorder *r, const char *line, size_t length) {
    capcheck_run_line it = capcheck_read_run_line(line, length);
    if (!goes_on(r))
        return false;
    if (it.line.kind == CAPCHECK_KIND_NONE || it.line.length != length)
        return stop(r, CAPCHECK_NO_LINE, "the text isn't one line of a run log");
    switch (it.line.kind) {
    case CAPCHECK_KIND_VERSION:
    case CAPCHECK_KIND_RUN_VERSION:
    case CAPCHECK_KIND_MODE:
    case CAPCHECK_KIND_ROOT:
    case CAPCHECK_KIND_ROOT_AT:
    case CAPCHECK_KIND_ROOT_SPECIAL:
    case CAPCHECK_KIND_HART:
    case CAPCHECK_KIND_END:
        return stop(r, CAPCHECK_NO_LINE, "the line is no step");
    default:
        break;
    }
    tell_integer(r, it.line.source);
    tell_integer(r, it.line.authority);
    if (it.source.kind == CAPCHECK_REGISTER)
        tell_integer(r, it.source.number);
    if (!step(r, line, length))
        return false;
    note(r, it);
    return pass(r);
}

/* ---- A log's beginning and end ---- */

bool capcheck_recorder_again(capcheck_recorder *r) {
    if (r->state != CAPCHECK_NO_MEMORY)
        return goes_on(r) && stop(r, CAPCHECK_NO_LINE, "no line has to be passed again");
    r->state = CAPCHECK_GOES_ON;
    r->error[0] = 0;
    return pass(r);
}

bool capcheck_recorder_start(capcheck_recorder *r, capcheck_run_judge *judge, capcheck_recorder_write write, void *to, uint8_t clear) {
    char line[CAPCHECK_LINE_SIZE];
    memset(r, 0, sizeof *r);
    begin(&r->first);
    r->judge = judge;
    r->write = write;
    r->to = to;
    r->phase = ROOTS;
    if (judge == NULL && write == NULL)
        return stop(r, CAPCHECK_NO_LINE, "nothing takes the lines: there is no judge and no function");
    return queue(r, line, capcheck_line_run_version(line)) && queue(r, line, capcheck_line_mode(line, clear)) && pass(r);
}

bool capcheck_recorder_root(capcheck_recorder *r, capcheck_place place, capcheck_word word) {
    char line[CAPCHECK_LINE_SIZE];
    size_t length;
    if (!is_place(r, place))
        return false;
    if (r->phase != ROOTS)
        return stop(r, CAPCHECK_NO_LINE, "a root comes before the first step");
    length = place.kind == CAPCHECK_GRANULE   ? capcheck_line_root_at(line, place.number, word)
             : place.kind == CAPCHECK_SPECIAL ? capcheck_line_root_special(line, place.number, word)
                                              : capcheck_line_root(line, place.number, word);
    note(r, capcheck_read_run_line(line, length));
    return queue(r, line, length) && pass(r);
}

bool capcheck_recorder_end(capcheck_recorder *r) {
    char line[CAPCHECK_LINE_SIZE];
    if (!goes_on(r) || !queue(r, line, capcheck_line_end(line, r->steps)))
        return false;
    r->phase = ENDED;
    return pass(r);
}

/* ---- Harts ---- */

bool capcheck_recorder_hart(capcheck_recorder *r, uint64_t hart, capcheck_recorder_registers *its) {
    char line[CAPCHECK_LINE_SIZE];
    if (!goes_on(r))
        return false;
    if (hart > 65535)
        return stop(r, CAPCHECK_NO_LINE, "the hart is %llu: the harts are 0 to 65535", (unsigned long long)hart);
    if (hart != 0 && its == NULL)
        return stop(r, CAPCHECK_NO_LINE, "hart %llu has no memory for its registers", (unsigned long long)hart);
    if (hart == r->hart)
        return true;
    r->hart = hart;
    r->others = hart == 0 ? NULL : its;
    begin(registers(r));
    return queue(r, line, capcheck_line_hart(line, hart)) && pass(r);
}

bool capcheck_recorder_thread_ended(capcheck_recorder *r) {
    uint64_t number;
    if (!goes_on(r))
        return false;
    for (number = 0; number < 64; number++)
        if (registers(r)->logged[number].tag != 0 &&
            (!drop(r, number < 32 ? capcheck_c(number) : capcheck_scr(number - 32)) || !pass(r)))
            return false;
    return true;
}

/* ---- Registers ---- */

/* Writes the line of a step. */
static size_t line_of(char line[CAPCHECK_LINE_SIZE], uint8_t kind, uint64_t target, uint64_t source, uint64_t other, uint64_t number,
                      capcheck_cap value) {
    switch (kind) {
    case CAPCHECK_KIND_MOVE: return capcheck_line_move(line, target, source, value);
    case CAPCHECK_KIND_CLEARTAG: return capcheck_line_cleartag(line, target, source, value);
    case CAPCHECK_KIND_SETBOUNDS: return capcheck_line_setbounds(line, target, source, number, value);
    case CAPCHECK_KIND_SETBOUNDSEXACT: return capcheck_line_setboundsexact(line, target, source, number, value);
    case CAPCHECK_KIND_SETADDR: return capcheck_line_setaddr(line, target, source, number, value);
    case CAPCHECK_KIND_ANDPERM: return capcheck_line_andperm(line, target, source, number, value);
    case CAPCHECK_KIND_SEAL: return capcheck_line_seal(line, target, source, other, value);
    default: return capcheck_line_unseal(line, target, source, other, value);
    }
}

bool capcheck_recorder_did(capcheck_recorder *r, uint8_t kind, uint64_t target, uint64_t source, uint64_t other, uint64_t number,
                           capcheck_cap value) {
    bool has_other = kind == CAPCHECK_KIND_SEAL || kind == CAPCHECK_KIND_UNSEAL;
    char line[CAPCHECK_LINE_SIZE];
    if (!is_register(r, "target", target, 0) || !is_register(r, "source", source, 0) ||
        (has_other && !is_register(r, "authority", other, 0)))
        return false;
    if (kind < CAPCHECK_KIND_MOVE || kind > CAPCHECK_KIND_UNSEAL)
        return stop(r, CAPCHECK_NO_LINE, "kind %u is no step that only writes a register", (unsigned)kind);
    if (target == 0)
        return true;
    tell_integer(r, source);
    if (has_other)
        tell_integer(r, other);
    if (!step(r, line, line_of(line, kind, target, source, other, number, value)))
        return false;
    hold(r, capcheck_c(target), value);
    return pass(r);
}

bool capcheck_recorder_wrote(capcheck_recorder *r, capcheck_place target, capcheck_place source, capcheck_cap value) {
    return is_either(r, "target", target) && is_either(r, "source", source) && derive(r, target, source, value) && pass(r);
}

bool capcheck_recorder_dropped(capcheck_recorder *r, capcheck_place place) { return is_place(r, place) && drop(r, place) && pass(r); }

bool capcheck_recorder_overwrote(capcheck_recorder *r, uint64_t target, uint64_t integer) {
    const capcheck_word null = capcheck_null();
    capcheck_recorder_registers *now = registers(r);
    const capcheck_cap *held = &now->logged[target & 31];
    if (!is_register(r, "target", target, 0))
        return false;
    if (target == 0)
        return true;
    if (held->tag != 0 && !drop(r, capcheck_c(target)))
        return false;
    now->integers[target] = integer;
    if (held->word.high == null.high && held->word.low == integer)
        now->unread &= ~(UINT32_C(1) << target);
    else
        now->unread |= UINT32_C(1) << target;
    return pass(r);
}

/* ---- Calls, traps, special registers ---- */

bool capcheck_recorder_exchanged(capcheck_recorder *r, uint64_t target, capcheck_place source, uint64_t special, capcheck_cap value,
                                 capcheck_cap special_value) {
    capcheck_place there = capcheck_scr(special);
    char line[CAPCHECK_LINE_SIZE];
    if (!is_register(r, "target", target, 0) || !is_special(r, "special register", special))
        return false;
    if (source.kind == CAPCHECK_NO_PLACE)
        return derive(r, capcheck_c(target), there, value) && pass(r);
    if (source.kind != CAPCHECK_REGISTER)
        return stop(r, CAPCHECK_NO_LINE, "the source is no register: a special register gets what comes from one");
    if (!is_register(r, "source", source.number, 0))
        return false;
    if (target == 0)
        return derive(r, there, source, special_value) && pass(r);
    tell_integer(r, source.number);
    if (!step(r, line, capcheck_line_exchange(line, target, source.number, special, value, special_value)))
        return false;
    hold(r, capcheck_c(target), value);
    hold(r, there, special_value);
    return pass(r);
}

bool capcheck_recorder_invoked(capcheck_recorder *r, uint64_t code, uint64_t datum, capcheck_word code_word, capcheck_word datum_word) {
    char line[CAPCHECK_LINE_SIZE];
    capcheck_cap made;
    if (!is_register(r, "code", code, 0) || !is_register(r, "datum", datum, 0) || !is_register(r, "target", 31, 0))
        return false;
    tell_integer(r, code);
    tell_integer(r, datum);
    if (!step(r, line, capcheck_line_invoke(line, code, datum, code_word, datum_word)))
        return false;
    made.tag = 1;
    made.word = code_word;
    hold(r, capcheck_scr(0), made);
    made.word = datum_word;
    hold(r, capcheck_c(31), made);
    return pass(r);
}

bool capcheck_recorder_trapped(capcheck_recorder *r, capcheck_place saved, capcheck_cap saved_value, uint64_t vector, capcheck_cap pcc) {
    if (!is_special(r, "vector", vector))
        return false;
    if (saved.kind != CAPCHECK_NO_PLACE) {
        if (saved.kind != CAPCHECK_SPECIAL)
            return stop(r, CAPCHECK_NO_LINE, "the saved register is no special register");
        if (!is_special(r, "saved register", saved.number) || !derive(r, saved, capcheck_scr(0), saved_value))
            return false;
    }
    return derive(r, capcheck_scr(0), capcheck_scr(vector), pcc) && pass(r);
}

/* ---- Memory ---- */

/* Finds the register through which an access goes, and its offset there: those of the instruction, or the spare register,
 * which gets the address of the access first. */
static bool reach(capcheck_recorder *r, capcheck_place authority, int64_t *offset, uint64_t *by) {
    capcheck_cap held;
    if (!is_either(r, "authority", authority))
        return false;
    *by = authority.number;
    if (authority.kind == CAPCHECK_REGISTER)
        tell_integer(r, authority.number);
    if (authority.kind == CAPCHECK_REGISTER && *offset >= -2048 && *offset <= 2047)
        return true;
    if (r->spare == 0)
        return stop(r, CAPCHECK_NO_LINE, "the access needs a spare register");
    if (r->spare > 31)
        return stop(r, CAPCHECK_NO_LINE, "the spare register is c%llu: the registers are c1 to c31", (unsigned long long)r->spare);
    held = *logged(r, authority);
    held = capcheck_set_addr_clear(held, held.word.low + (uint64_t)*offset);
    *by = r->spare;
    *offset = 0;
    return derive(r, capcheck_c(r->spare), authority, held);
}

/* Queues an access, after which the spare register has no tag, if the access went through that. */
static bool access(capcheck_recorder *r, const char *line, size_t length, uint64_t by) {
    return step(r, line, length) && (r->spare == 0 || by != r->spare || drop(r, capcheck_c(by)));
}

/* Whether the recording goes on and data have a size, and a value of that size. */
static bool is_data(capcheck_recorder *r, uint64_t size, uint64_t value) {
    if (!goes_on(r))
        return false;
    if (size != 1 && size != 2 && size != 4 && size != 8)
        return stop(r, CAPCHECK_NO_LINE, "the access has %llu bytes: data have 1, 2, 4 or 8", (unsigned long long)size);
    if (size < 8 && value >> (8 * size) != 0)
        return stop(r, CAPCHECK_NO_LINE, "the value %llx has more than %u bytes", (unsigned long long)value, (unsigned)size);
    return true;
}

/* Queues a load of data. */
static bool load(capcheck_recorder *r, capcheck_place authority, int64_t offset, uint64_t size, uint64_t value) {
    char line[CAPCHECK_LINE_SIZE];
    uint64_t by;
    return is_data(r, size, value) && reach(r, authority, &offset, &by) &&
           access(r, line, capcheck_line_load(line, by, offset, size, value), by);
}

bool capcheck_recorder_loaded(capcheck_recorder *r, capcheck_place authority, int64_t offset, uint64_t size, uint64_t value) {
    return load(r, authority, offset, size, value) && pass(r);
}

bool capcheck_recorder_stored(capcheck_recorder *r, capcheck_place authority, int64_t offset, uint64_t size, uint64_t value) {
    char line[CAPCHECK_LINE_SIZE];
    uint64_t by;
    return is_data(r, size, value) && reach(r, authority, &offset, &by) &&
           access(r, line, capcheck_line_store(line, by, offset, size, value), by) && pass(r);
}

bool capcheck_recorder_loaded_cap(capcheck_recorder *r, uint64_t target, capcheck_place authority, int64_t offset, capcheck_cap value) {
    const capcheck_word null = capcheck_null();
    char line[CAPCHECK_LINE_SIZE];
    uint64_t by;
    if (!is_register(r, "target", target, 0))
        return false;
    if (target == 0)
        return load(r, authority, offset, 8, value.word.low ^ null.low) &&
               load(r, authority, (int64_t)((uint64_t)offset + 8), 8, value.word.high ^ null.high) && pass(r);
    if (!reach(r, authority, &offset, &by) || !access(r, line, capcheck_line_lc(line, target, by, offset, value), by))
        return false;
    hold(r, capcheck_c(target), value);
    return pass(r);
}

bool capcheck_recorder_stored_cap(capcheck_recorder *r, uint64_t source, capcheck_place authority, int64_t offset) {
    char line[CAPCHECK_LINE_SIZE];
    uint64_t by;
    if (!is_register(r, "source", source, 0) || !reach(r, authority, &offset, &by))
        return false;
    tell_integer(r, source);
    return access(r, line, capcheck_line_sc(line, source, by, offset), by) && pass(r);
}

bool capcheck_recorder_filled(capcheck_recorder *r, uint64_t address, const uint8_t bytes[16]) {
    char line[CAPCHECK_LINE_SIZE];
    return is_granule(r, address) && step(r, line, capcheck_line_fill(line, address, capcheck_from_memory(bytes))) && pass(r);
}

/* ---- Objects ---- */

/* Whether the recording goes on and an object's number is in range, or 0. */
static bool is_object(capcheck_recorder *r, uint64_t object) {
    if (goes_on(r) && object > UINT32_MAX)
        return stop(r, CAPCHECK_NO_LINE, "the object is %llu: their numbers are below 2^32", (unsigned long long)object);
    return r->state == CAPCHECK_GOES_ON;
}

bool capcheck_recorder_object(capcheck_recorder *r, uint64_t source, uint64_t object) {
    char line[CAPCHECK_LINE_SIZE];
    if (!is_register(r, "source", source, 1) || !is_object(r, object))
        return false;
    tell_integer(r, source);
    return step(r, line, capcheck_line_object(line, source, object)) && pass(r);
}

bool capcheck_recorder_freed(capcheck_recorder *r, uint64_t source, uint64_t object) {
    char line[CAPCHECK_LINE_SIZE];
    if (!is_register(r, "source", source, object == 0) || !is_object(r, object))
        return false;
    if (object != 0 && source != 0)
        return stop(r, CAPCHECK_NO_LINE, "free names both c%u and object %llu", (unsigned)source, (unsigned long long)object);
    tell_integer(r, source);
    return step(r, line, capcheck_line_free(line, source, object)) && pass(r);
}
