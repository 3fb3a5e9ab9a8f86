/*
 * A plugin of QEMU's user mode that records what a program loads and stores, as logs for `capcheck judge`. The judge is
 * linked in: it says what the log's memory holds, and names the faulty line in the very access. README.md beside this
 * file says how it is built and run, and what such a log shows.
 *
 * c1 is the root, the whole address space. c2 to c29 are windows, one for each 2 KB that was used lately, moved by
 * `setaddr`. c31 is the kernel's: a value that is loaded and that no line stored was written unseen by the recorder, by a
 * system call or another thread, and gets its `store` then.
 */
#define _GNU_SOURCE
#include <capcheck_judge.h>
#include <qemu-plugin.h>

#include <fcntl.h>
#include <stdarg.h>
#include <stdio.h>
#include <stdlib.h>
#include <string.h>
#include <unistd.h>

QEMU_PLUGIN_EXPORT int qemu_plugin_version = QEMU_PLUGIN_VERSION;

/* Where the guest's address 0 stands: QEMU's own, in user mode. */
extern uintptr_t guest_base;

enum { ROOT = 1, FIRST = 2, WINDOWS = 28, KERNEL = 31 };

static capcheck_judge judge = CAPCHECK_NO_JUDGE_YET;
static capcheck_cap root;
static uint64_t window[32]; /* which 2 KB each register reaches, or none */
static uint64_t steps;
static const char *name;
static unsigned logs;
static int file = -1, told = 2;
static char buffer[1 << 20];
static size_t used;
static bool has_ended;

static void tell(const char *format, ...) {
    va_list words;
    va_start(words, format);
    vdprintf(told, format, words);
    va_end(words);
}

static void flush(void) {
    for (size_t at = 0; at < used && !has_ended;) {
        ssize_t count = write(file, buffer + at, used - at);
        if (count <= 0) {
            tell("recorder: the log can't be written\n");
            has_ended = true;
        } else
            at += (size_t)count;
    }
    used = 0;
}

/* Hands over the line that follows the buffer's text, and keeps it if it is taken. One that passes a limit is
 * left out: the next log begins with it. */
static bool put(size_t length) {
    uint8_t state = capcheck_judge_line(&judge, buffer + used, length);
    if (state == CAPCHECK_GOES_ON) {
        used += length;
        if (used > sizeof buffer - CAPCHECK_LINE_SIZE)
            flush();
        return true;
    }
    capcheck_answer no = capcheck_judge_answer(&judge);
    if (state == CAPCHECK_NO && no.refusal == CAPCHECK_LIMIT_PASSED)
        return false;
    tell("recorder: %s %llu %s\n", state == CAPCHECK_NO_MEMORY ? "no memory, line" : "line", (unsigned long long)no.line,
         capcheck_refusal_text(no.refusal));
    used += state == CAPCHECK_NO ? length : 0;
    flush();
    has_ended = true;
    return false;
}

static void begin(void) {
    char path[4096];
    snprintf(path, sizeof path, logs == 0 ? "%s" : "%s.%u", name, logs);
    file = open(path, O_WRONLY | O_CREAT | O_TRUNC | O_CLOEXEC, 0644);
    file = file < 0 ? file : fcntl(file, F_DUPFD_CLOEXEC, 500); /* above those that the program counts on */
    if (file < 0 || capcheck_judge_open(&judge) != CAPCHECK_GOES_ON) {
        tell("recorder: %s can't be begun\n", path);
        has_ended = true;
        return;
    }
    memset(window, 0xff, sizeof window);
    steps = 0;
    logs++;
    put(capcheck_line_version(buffer + used, 2));
    put(capcheck_line_mode(buffer + used, 0));
    put(capcheck_line_root(buffer + used, ROOT, root.word));
}

static void end(void) {
    used += capcheck_line_end(buffer + used, steps);
    flush();
    close(file);
    capcheck_judge_close(&judge);
}

static bool step(size_t length) {
    bool taken = put(length);
    steps += taken;
    return taken;
}

/* Sees that a register reaches an address. */
static bool reached(unsigned number, uint64_t address) {
    uint64_t start = address & ~(uint64_t)2047;
    if (window[number] == start)
        return true;
    window[number] = start;
    return step(capcheck_line_setaddr(buffer + used, number, ROOT, start, capcheck_set_addr(root, start).cap));
}

/* One aligned access of at most 8 bytes, with the value that memory holds after it: whether the log has it. */
static bool recorded(uint64_t address, unsigned size, bool is_store) {
    unsigned number = FIRST + (unsigned)(address >> 11) % WINDOWS;
    int64_t offset = (int64_t)(address & 2047);
    uint64_t value = 0, held = 0;
    uint8_t bytes[16];
    memcpy(&value, (const void *)(guest_base + address), size);
    capcheck_word word = capcheck_judge_granule(&judge, address).cap.word;
    capcheck_to_memory(word, bytes);
    memcpy(&held, bytes + (address & 15), size);
    if (!is_store && value != held &&
        !(reached(KERNEL, address) && step(capcheck_line_store(buffer + used, KERNEL, offset, size, value))))
        return false;
    return reached(number, address) && step(is_store ? capcheck_line_store(buffer + used, number, offset, size, value)
                                                     : capcheck_line_load(buffer + used, number, offset, size, value));
}

/* An access of any size, as the largest aligned ones that it is made of. */
static void accessed(unsigned thread, qemu_plugin_meminfo_t info, uint64_t address, void *none) {
    uint64_t size = UINT64_C(1) << qemu_plugin_mem_size_shift(info);
    (void)none;
    for (uint64_t done = 0; thread == 0 && done < size;) {
        unsigned part = 8;
        while ((address + done) % part != 0 || part > size - done)
            part /= 2;
        if (has_ended)
            return;
        if (recorded(address + done, part, qemu_plugin_mem_is_store(info)))
            done += part;
        else if (!has_ended) { /* a limit: the same access begins another log */
            end();
            begin();
        }
    }
}

static void translated(qemu_plugin_id_t id, struct qemu_plugin_tb *block) {
    (void)id;
    for (size_t i = 0; i < qemu_plugin_tb_n_insns(block); i++)
        qemu_plugin_register_vcpu_mem_cb(qemu_plugin_tb_get_insn(block, i), accessed, QEMU_PLUGIN_CB_NO_REGS,
                                         QEMU_PLUGIN_MEM_RW, NULL);
}

static void finished(qemu_plugin_id_t id, void *none) {
    (void)id, (void)none;
    if (has_ended)
        return;
    capcheck_answer answer = capcheck_judge_answer(&judge);
    tell("recorder: %u log%s, and no line refused\n", logs, logs == 1 ? "" : "s");
    if (answer.state == CAPCHECK_GOES_ON)
        end();
}

QEMU_PLUGIN_EXPORT int qemu_plugin_install(qemu_plugin_id_t id, const qemu_info_t *info, int count, char **words) {
    (void)info;
    if (count != 1 || strncmp(words[0], "log=", 4) != 0) {
        fprintf(stderr, "recorder: one word, log=FILE\n");
        return 1;
    }
    name = words[0] + 4;
    told = fcntl(2, F_DUPFD_CLOEXEC, 500);
    capcheck_wide whole = {1, 0};
    root.word = capcheck_root(0, whole, CAPCHECK_ALL_PERMISSIONS).word;
    root.tag = 1;
    begin();
    qemu_plugin_register_vcpu_tb_trans_cb(id, translated);
    qemu_plugin_register_atexit_cb(id, finished, NULL);
    return has_ended ? 1 : 0;
}
