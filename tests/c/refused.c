/*
 * "no lent byte written" (demand 1): a refused call, and every query, on a session whose pages cannot be written. Every call and query is
 * tried in every stage of a day with each row of the table that it can be refused by there; the writer with a buffer, the reader with
 * a message that cannot be written. A byte stored, even one that is there already, is a fault and a failed check (tests/c/stores_back.c
 * is a gate that stores such bytes).
 */
#define _GNU_SOURCE /* MAP_ANONYMOUS */

#include "calls.h"

#include <setjmp.h>
#include <signal.h>
#include <stdio.h>
#include <stdlib.h>
#include <string.h>
#include <sys/mman.h>

static unsigned long checks = 0;
static unsigned long failed = 0;
static const char *stage = "";

/* ---- pages */

static uint8_t *pages(size_t size) {
    void *p = mmap(NULL, size, PROT_READ | PROT_WRITE, MAP_PRIVATE | MAP_ANONYMOUS, -1, 0);
    if (p == MAP_FAILED) exit(2);
    return p;
}
enum { PAGES = 16 * 4096 };
GATE_ASSERT(sizeof(GateSession) <= PAGES);
static GateSession *s;
static uint8_t *message; /* GATE_MESSAGE bytes */
static uint8_t *buffer;  /* the writer's */

static void protect(int how) {
    if (mprotect(s, PAGES, how) || mprotect(message, 4096, how) || mprotect(buffer, 4096, how)) exit(2);
}

static sigjmp_buf back;
static volatile sig_atomic_t armed = 0;
static void fault(int signal) {
    if (!armed) _exit(128 + signal);
    siglongjmp(back, 1);
}

static void say(int line, const char *text, const char *what) {
    failed++;
    printf("refused.c:%d: %s: %s: %s\n", line, stage, text, what);
}

/* A call or query with nothing writable but the stack: it must answer `kind`, `row` and `hour`. */
#define TRY(call, the_kind, the_row, the_hour)                                                                   \
    do {                                                                                                         \
        checks++;                                                                                                \
        protect(PROT_READ);                                                                                      \
        if (sigsetjmp(back, 1) == 0) {                                                                           \
            armed = 1;                                                                                           \
            GateResponse r = (call);                                                                             \
            armed = 0;                                                                                           \
            if (r.kind != (the_kind) || r.row != (uint32_t)(the_row) || r.hour != (uint32_t)(the_hour))          \
                say(__LINE__, #call, "another answer");                                                          \
        } else {                                                                                                 \
            armed = 0;                                                                                           \
            say(__LINE__, #call, "a lent byte was written");                                                     \
        }                                                                                                        \
        protect(PROT_READ | PROT_WRITE);                                                                         \
    } while (0)
#define REFUSED(call, row, hour) TRY(call, GATE_REFUSED, row, hour)
#define FIGURE(call) TRY(call, GATE_FIGURE, 0, 0)

/* A call that makes the stage: it must be accepted. */
static void done(GateResponse r, uint32_t kind, int line) {
    checks++;
    if (r.kind != kind) say(line, "a call of the stage", "refused");
}
#define ACCEPTED(call) done((call), GATE_ACCEPTED, __LINE__)
#define NUMBERED(call) done((call), GATE_NUMBERED, __LINE__)

/* ---- arguments */

static GateUnit unit(uint32_t number, uint32_t agent, uint32_t border, bool purchase) {
    GateUnit u = {0};
    u.number = number;
    u.agent = agent;
    u.border = border;
    u.purchase = purchase;
    u.maximum = 1000;
    return u;
}
static GateUnavailability availability(uint32_t number, size_t count, uint32_t energy) {
    GateUnavailability a = {0};
    a.unit = number;
    a.count = count;
    for (size_t i = 0; i < GATE_HOURS; i++) a.energies[i] = energy;
    return a;
}
static GateUnit marked(GateUnit u) {
    u.rights = true;
    return u;
}
static GateRights rights(uint32_t agent, bool purchase, size_t count, uint32_t energy) {
    GateRights n = {0};
    n.agent = agent;
    n.purchase = purchase;
    n.count = count;
    for (size_t i = 0; i < GATE_HOURS; i++) n.energies[i] = energy;
    return n;
}
static GateLoss loss(uint32_t border, uint32_t lost) {
    return (GateLoss){border, lost};
}
static GateCapacities capacities(size_t count, uint32_t energy) {
    GateCapacities c = {0};
    for (size_t d = 0; d < GATE_DIRECTIONS; d++) {
        c.directions[d].published = true;
        c.directions[d].count = count;
        for (size_t i = 0; i < GATE_HOURS; i++) c.directions[d].energies[i] = energy;
    }
    return c;
}
static GateKey key(bool execution, uint32_t number, uint32_t contract) {
    GateKey k = {0};
    k.execution = execution;
    k.unit = number;
    k.contract = contract;
    return k;
}
static GateFields fields(GateKey k, uint32_t hour, uint32_t energy) {
    GateFields f = {0};
    f.execution = k.execution;
    f.is_default = k.is_default;
    f.unit = k.unit;
    f.contract = k.contract;
    f.map = gate_hour_bit(hour);
    f.energies[hour - 1] = energy;
    f.prices[hour - 1] = k.execution ? 0 : 3000;
    return f;
}

/* The message of one hour, in the pages that are not written to while it is lodged. */
static size_t put(GateKey k, uint32_t hour, uint32_t energy) {
    size_t n = gate_write(fields(k, hour, energy), message, GATE_MESSAGE).count;
    if (n == 0) exit(2);
    return n;
}
static GateResponse lodge(GateKey k, uint32_t hour, uint32_t energy) {
    return call_lodge(s, message, put(k, hour, energy));
}
#define REFUSED_LODGING(k, hour, energy, row, at)               \
    do {                                                        \
        size_t length = put((k), (hour), (energy));             \
        REFUSED(call_lodge(s, message, length), (row), (at));   \
    } while (0)

/* ---- what every stage refuses */

static void messages_that_are_none(uint32_t row) {
    REFUSED(call_lodge(s, message, 0), row, 0);
    REFUSED(call_lodge(s, message, 7), row, 0);
    size_t n = put(key(false, 1, 0), 3, 10);
    REFUSED(call_lodge(s, message, n - 1), row, 0);
    message[0] ^= 0xF0;
    REFUSED(call_lodge(s, message, n), row, 0);
}

/* After closing every change is refused as 2, whatever it brings. */
static void changes_too_late(void) {
    REFUSED(call_register(s, unit(900, 900, 0, false)), GATE_REFUSED_GATE, 0);
    REFUSED(call_register(s, unit(0, 0, 9, false)), GATE_REFUSED_GATE, 0);
    REFUSED(call_unavailability(s, availability(1, 24, 5)), GATE_REFUSED_GATE, 0);
    REFUSED(call_unavailability(s, availability(0, 3, 100000)), GATE_REFUSED_GATE, 0);
    REFUSED(call_register(s, marked(unit(900, 900, GATE_FRANCE, true))), GATE_REFUSED_GATE, 0);
    REFUSED(call_rights(s, rights(2, true, 24, 5)), GATE_REFUSED_GATE, 0);
    REFUSED(call_rights(s, rights(0, false, 3, 100000)), GATE_REFUSED_GATE, 0);
    REFUSED(call_loss(s, loss(1, 5)), GATE_REFUSED_GATE, 0);
    REFUSED(call_loss(s, loss(0, 2001)), GATE_REFUSED_GATE, 0);
    REFUSED(call_capacity(s, capacities(24, 5)), GATE_REFUSED_GATE, 0);
    REFUSED(call_capacity(s, capacities(26, 100000)), GATE_REFUSED_GATE, 0);
    REFUSED_LODGING(key(false, 1, 0), 1, 10, GATE_REFUSED_GATE, 0);
    messages_that_are_none(GATE_REFUSED_GATE);
    REFUSED(call_annul(s, key(false, 1, 0)), GATE_REFUSED_GATE, 0);
    REFUSED(call_annul(s, key(true, 0, 0)), GATE_REFUSED_GATE, 0);
    REFUSED(call_close(s), GATE_REFUSED_GATE, 0);
}

/* A counter that lives over TRY's jump back is volatile. */
static void figures_too_early(void) {
    for (volatile uint32_t hour = 0; hour < 27; hour += 13) {
        REFUSED(gate_matched(s, 1, hour), GATE_REFUSED_GATE, 0);
        REFUSED(gate_executed(s, 1, hour), GATE_REFUSED_GATE, 0);
        REFUSED(gate_market_balance(s, 1, hour), GATE_REFUSED_GATE, 0);
        REFUSED(gate_bilateral_balance(s, 1, hour), GATE_REFUSED_GATE, 0);
        REFUSED(gate_market_maximum(s, 1, true, hour), GATE_REFUSED_GATE, 0);
        REFUSED(gate_bilateral_maximum(s, 1, false, hour), GATE_REFUSED_GATE, 0);
        REFUSED(gate_price(s, hour), GATE_REFUSED_GATE, 0);
    }
}

/* What an open session of 24 hours refuses whatever stands in it: unit 1 is a domestic sale, unit 2 France's purchase of agent 2, unit 3
 * the same with rights. */
static void open_refusals(bool registered) {
    REFUSED(call_register(s, unit(0, 1, 0, false)), GATE_REFUSED_RANGE, 0);
    REFUSED(call_register(s, unit(900, 65536, 0, false)), GATE_REFUSED_RANGE, 0);
    REFUSED(call_register(s, unit(900, 1, 5, false)), GATE_REFUSED_RANGE, 0);
    GateUnit legacy = unit(900, 1, 0, false);
    legacy.legacy = true;
    REFUSED(call_register(s, legacy), GATE_REFUSED_RANGE, 0);
    REFUSED(call_register(s, marked(unit(900, 2, GATE_DOMESTIC, true))), GATE_REFUSED_RANGE, 0);
    REFUSED(call_register(s, marked(unit(900, 2, GATE_MOROCCO, true))), GATE_REFUSED_RANGE, 0);
    REFUSED(call_rights(s, rights(2, true, 23, 5)), GATE_REFUSED_HOUR, 0);
    REFUSED(call_rights(s, rights(0, true, 24, 5)), GATE_REFUSED_RANGE, 0);
    REFUSED(call_rights(s, rights(2, true, 24, 100000)), GATE_REFUSED_RANGE, 0);
    REFUSED(call_rights(s, rights(2, false, 24, 5)), GATE_REFUSED_UNIT, 0);
    REFUSED(call_rights(s, rights(901, true, 24, 5)), GATE_REFUSED_UNIT, 0);
    REFUSED(call_loss(s, loss(1, 2001)), GATE_REFUSED_RANGE, 0);
    REFUSED(call_loss(s, loss(4, 4294967295u)), GATE_REFUSED_RANGE, 0);
    REFUSED(call_loss(s, loss(0, 0)), GATE_REFUSED_RANGE, 0);
    REFUSED(call_loss(s, loss(5, 0)), GATE_REFUSED_RANGE, 0);
    REFUSED(call_loss(s, loss(4294967295u, 4294967295u)), GATE_REFUSED_RANGE, 0);
    REFUSED(call_unavailability(s, availability(1, 23, 5)), GATE_REFUSED_HOUR, 0);
    REFUSED(call_unavailability(s, availability(1, 24, 100000)), GATE_REFUSED_RANGE, 0);
    REFUSED(call_unavailability(s, availability(901, 24, 5)), GATE_REFUSED_UNIT, 0);
    REFUSED(call_capacity(s, capacities(25, 5)), GATE_REFUSED_HOUR, 0);
    REFUSED(call_capacity(s, capacities(24, 100000)), GATE_REFUSED_RANGE, 0);
    messages_that_are_none(GATE_REFUSED_FORM);
    REFUSED_LODGING(key(false, 1, 0), 25, 10, GATE_REFUSED_HOUR, 0);
    size_t n = put(key(false, 1, 0), 1, 10);
    memset(message + 8, 0, 4);
    REFUSED(call_lodge(s, message, n), GATE_REFUSED_RANGE, 0);
    REFUSED_LODGING(key(false, 901, 0), 1, 10, GATE_REFUSED_UNIT, 0);
    REFUSED(call_annul(s, key(false, 0, 0)), GATE_REFUSED_RANGE, 0);
    REFUSED(call_annul(s, key(false, 1, 7)), GATE_REFUSED_RANGE, 0);
    REFUSED(call_annul(s, key(false, 901, 0)), GATE_REFUSED_UNIT, 0);
    if (registered) {
        REFUSED(call_register(s, unit(1, 900, 0, false)), GATE_REFUSED_TAKEN, 0);
        REFUSED(call_register(s, unit(900, 2, GATE_FRANCE, true)), GATE_REFUSED_SECOND, 0);
        REFUSED(call_register(s, marked(unit(900, 2, GATE_FRANCE, true))), GATE_REFUSED_SECOND, 0);
        REFUSED_LODGING(key(true, 1, 4), 1, 10, GATE_REFUSED_UNIT, 0);
        REFUSED(call_annul(s, key(true, 1, 4)), GATE_REFUSED_UNIT, 0);
        REFUSED(call_annul(s, key(true, 2, 60000)), GATE_REFUSED_ABSENT, 0);
    }
    REFUSED(call_clear(s), GATE_REFUSED_GATE, 0);
    REFUSED(gate_verdict(s, 0), GATE_REFUSED_GATE, 0);
    REFUSED(gate_verdict(s, 1), GATE_REFUSED_GATE, 0);
    figures_too_early();
}

/* ---- the stages */

static void open_session(const char *name) {
    stage = name;
    memset(s, 0xEE, PAGES);
    GateOpening o = gate_open((GateDate){2006, 6, 1});
    done(o.response, GATE_ACCEPTED, __LINE__);
    *s = o.session;
}

static void fill(void) {
    ACCEPTED(call_register(s, unit(1, 1, 0, false)));
    ACCEPTED(call_register(s, unit(2, 2, GATE_FRANCE, true)));
    REFUSED(call_register(s, marked(unit(3, 2, GATE_FRANCE, false))), GATE_REFUSED_RIGHTS, 0);
    REFUSED(call_register(s, marked(unit(3, 1, GATE_FRANCE, true))), GATE_REFUSED_RIGHTS, 0);
    ACCEPTED(call_register(s, marked(unit(3, 2, GATE_FRANCE, true))));
    ACCEPTED(call_rights(s, rights(2, true, 24, 40)));
    ACCEPTED(call_loss(s, loss(GATE_FRANCE, 25))); /* 200 x 1.0025 = 200.5: its limits stay */
    ACCEPTED(call_loss(s, loss(GATE_MOROCCO, GATE_MAX_LOSS)));
    ACCEPTED(call_capacity(s, capacities(24, 100)));
    ACCEPTED(call_unavailability(s, availability(1, 24, 700)));
    NUMBERED(lodge(key(false, 1, 0), 1, 500));
    NUMBERED(lodge(key(false, 2, 0), 1, 50));
    NUMBERED(lodge(key(true, 2, 1), 1, 90));
    GateKey kept = key(true, 2, 1);
    kept.is_default = true;
    NUMBERED(lodge(kept, 1, 90));
    NUMBERED(lodge(key(false, 3, 0), 1, 30));
    NUMBERED(lodge(key(true, 3, 1), 1, 10));
}

static void limits_passed(void) {
    REFUSED_LODGING(key(false, 1, 0), 7, 1001, GATE_REFUSED_MAXIMUM, 7);
    REFUSED_LODGING(key(false, 1, 0), 8, 701, GATE_REFUSED_AVAILABLE, 8);
    REFUSED_LODGING(key(false, 2, 0), 9, 161, GATE_REFUSED_BORDER, 9);
    REFUSED_LODGING(key(true, 2, 1), 1, 111, GATE_REFUSED_BORDER, 1);
    REFUSED_LODGING(key(false, 3, 0), 9, 201, GATE_REFUSED_BORDER, 9);
    REFUSED_LODGING(key(false, 3, 0), 9, 41, GATE_REFUSED_RIGHTS, 9);
    REFUSED_LODGING(key(true, 3, 1), 1, 11, GATE_REFUSED_RIGHTS, 1);
}

static void full(void) {
    for (uint32_t n = 4; n <= GATE_UNITS; n++) ACCEPTED(call_register(s, unit(n, n, n % 5, n % 2 == 0)));
    REFUSED(call_register(s, unit(900, 900, 0, false)), GATE_REFUSED_FULL, 0);
    REFUSED(call_register(s, marked(unit(900, 900, GATE_FRANCE, true))), GATE_REFUSED_FULL, 0);
    for (uint32_t c = 2; s->standing < GATE_LODGEMENTS; c++) NUMBERED(lodge(key(true, 2, c), 1 + c % 24, 1));
    REFUSED_LODGING(key(true, 2, 60000), 1, 1, GATE_REFUSED_FULL, 0);
}

static void used_up(void) {
    while (s->last < GATE_NUMBERS) {
        GateResponse r = lodge(key(false, 1, 0), 1, 500);
        if (r.kind != GATE_NUMBERED) exit(2);
    }
    REFUSED_LODGING(key(false, 1, 0), 1, 500, GATE_REFUSED_FULL, 0);
}

static void closed(void) {
    changes_too_late();
    figures_too_early();
    REFUSED(gate_verdict(s, 0), GATE_REFUSED_ABSENT, 0);
    REFUSED(gate_verdict(s, 65536), GATE_REFUSED_ABSENT, 0);
    TRY(gate_verdict(s, s->lodgements[0].number), GATE_ACCEPTED, 0, 0);
}

static void cleared(void) {
    changes_too_late();
    REFUSED(call_clear(s), GATE_REFUSED_GATE, 0);
    REFUSED(gate_verdict(s, 0), GATE_REFUSED_ABSENT, 0);
    TRY(gate_verdict(s, s->lodgements[0].number), GATE_ACCEPTED, 0, 0);
    static const uint32_t hours[] = {0, 25, 4294967295u};
    for (volatile size_t i = 0; i < 3; i++) {
        REFUSED(gate_matched(s, 1, hours[i]), GATE_REFUSED_HOUR, 0);
        REFUSED(gate_executed(s, 1, hours[i]), GATE_REFUSED_HOUR, 0);
        REFUSED(gate_market_balance(s, 1, hours[i]), GATE_REFUSED_HOUR, 0);
        REFUSED(gate_bilateral_balance(s, 1, hours[i]), GATE_REFUSED_HOUR, 0);
        REFUSED(gate_market_maximum(s, 1, true, hours[i]), GATE_REFUSED_HOUR, 0);
        REFUSED(gate_bilateral_maximum(s, 1, false, hours[i]), GATE_REFUSED_HOUR, 0);
        REFUSED(gate_price(s, hours[i]), GATE_REFUSED_HOUR, 0);
    }
    static const uint32_t borders[] = {0, 5, 4294967295u};
    for (volatile size_t i = 0; i < 3; i++) {
        REFUSED(gate_market_balance(s, borders[i], 1), GATE_REFUSED_RANGE, 0);
        REFUSED(gate_bilateral_balance(s, borders[i], 1), GATE_REFUSED_RANGE, 0);
        REFUSED(gate_market_maximum(s, borders[i], true, 1), GATE_REFUSED_RANGE, 0);
        REFUSED(gate_bilateral_maximum(s, borders[i], false, 1), GATE_REFUSED_RANGE, 0);
    }
    REFUSED(gate_matched(s, 0, 1), GATE_REFUSED_RANGE, 0);
    REFUSED(gate_executed(s, 65536, 1), GATE_REFUSED_RANGE, 0);
    REFUSED(gate_matched(s, 901, 1), GATE_REFUSED_UNIT, 0);
    REFUSED(gate_executed(s, 901, 1), GATE_REFUSED_UNIT, 0);
    FIGURE(gate_matched(s, 1, 1));
    FIGURE(gate_executed(s, 2, 1));
    FIGURE(gate_market_balance(s, 1, 1));
    FIGURE(gate_bilateral_balance(s, 1, 1));
    FIGURE(gate_market_maximum(s, 1, true, 1));
    FIGURE(gate_bilateral_maximum(s, 1, true, 1));
    FIGURE(gate_price(s, 1));
}

/* The writer's buffer: refused, not a byte of it is written. */
static void write_refused(GateFields f, size_t length, uint32_t row, int line) {
    checks++;
    protect(PROT_READ);
    if (sigsetjmp(back, 1) == 0) {
        armed = 1;
        GateWritten w = gate_write(f, buffer, length);
        armed = 0;
        if (w.row != row || w.count != 0) say(line, "gate_write", "another answer");
    } else {
        armed = 0;
        say(line, "gate_write", "a lent byte was written");
    }
    protect(PROT_READ | PROT_WRITE);
}
static void writer(void) {
    stage = "the writer";
    GateFields f = fields(key(false, 7, 0), 3, 120);
    for (size_t length = 0; length < 12; length++) write_refused(f, length, GATE_REFUSED_SHORT, __LINE__);
    GateFields none = f, wide = f, zero = f, large = f, contract = f;
    none.map = 0;
    wide.map = 1u << 25;
    zero.energies[2] = 0;
    large.energies[2] = GATE_MAX_ENERGY + 1;
    contract.contract = 3;
    write_refused(none, GATE_MESSAGE, GATE_REFUSED_HOUR, __LINE__);
    write_refused(wide, GATE_MESSAGE, GATE_REFUSED_HOUR, __LINE__);
    write_refused(zero, GATE_MESSAGE, GATE_REFUSED_RANGE, __LINE__);
    write_refused(large, GATE_MESSAGE, GATE_REFUSED_RANGE, __LINE__);
    write_refused(contract, GATE_MESSAGE, GATE_REFUSED_RANGE, __LINE__);
}

/* The reader's message, read or refused. */
static void read_answers(size_t length, uint32_t row, int line) {
    checks++;
    protect(PROT_READ);
    if (sigsetjmp(back, 1) == 0) {
        armed = 1;
        GateReading r = gate_read(message, length);
        armed = 0;
        if (r.row != row) say(line, "gate_read", "another answer");
    } else {
        armed = 0;
        say(line, "gate_read", "a lent byte was written");
    }
    protect(PROT_READ | PROT_WRITE);
}
static void reader(void) {
    stage = "the reader";
    size_t n = put(key(false, 7, 0), 3, 120);
    read_answers(n, 0, __LINE__);
    for (size_t length = 0; length < n; length++) read_answers(length, GATE_REFUSED_FORM, __LINE__);
    memset(message + 8, 0, 4);
    read_answers(n, GATE_REFUSED_RANGE, __LINE__);
    memset(message + 4, 0, 4);
    read_answers(8, GATE_REFUSED_HOUR, __LINE__);
}

/* The pages are what this test says they are: a store faults. */
static void pages_are_guarded(void) {
    static volatile uint8_t *const *at = (volatile uint8_t *const *)&buffer;
    checks++;
    protect(PROT_READ);
    volatile bool faulted = true; /* kept over the jump */
    if (sigsetjmp(back, 1) == 0) {
        armed = 1;
        **at = 0;
        faulted = false;
    }
    armed = 0;
    protect(PROT_READ | PROT_WRITE);
    if (!faulted) say(__LINE__, "a store", "did not fault");
}

int main(void) {
    struct sigaction act = {0};
    act.sa_handler = fault;
    sigaction(SIGSEGV, &act, NULL);
    sigaction(SIGBUS, &act, NULL);
    s = (GateSession *)pages(PAGES);
    message = pages(4096);
    buffer = pages(4096);

    stage = "pages";
    pages_are_guarded();
    writer();
    reader();

    open_session("open and empty");
    open_refusals(false);
    stage = "open and in use";
    fill();
    open_refusals(true);
    limits_passed();
    stage = "open and full";
    full();
    open_refusals(true);
    stage = "65,535 accepted";
    used_up();
    open_refusals(true);
    stage = "closed";
    ACCEPTED(call_close(s));
    closed();
    stage = "cleared";
    done(call_clear(s), GATE_STEPS, __LINE__);
    cleared();

    open_session("closed with nothing lodged");
    ACCEPTED(call_close(s));
    changes_too_late();
    figures_too_early();
    stage = "cleared with nothing lodged";
    done(call_clear(s), GATE_STEPS, __LINE__);
    changes_too_late();
    REFUSED(call_clear(s), GATE_REFUSED_GATE, 0);

    printf("refused: %lu checks, %lu failed\n", checks, failed);
    return failed ? 1 : 0;
}
