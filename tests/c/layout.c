/*
 * What include/gate.h says of the layout, against the running archive: a session that the calls filled to its last places holds, field by
 * field, what was passed and what the queries answer; a struct that is given back is written to its last byte and not beyond; no call
 * writes beside the session, the message or the buffer; a refused call leaves the session as it was; a day leaves the same bytes whatever the memory and the reserved fields that were passed
 * held; a call keeps to GATE_STACK bytes of stack.
 */
#define _POSIX_C_SOURCE 200809L /* pthread_attr_setstack */

#include "calls.h"

#include <pthread.h>
#include <stdio.h>
#include <stdlib.h>
#include <string.h>

static unsigned long checks = 0;
static unsigned long failed = 0;

static void check(bool fact, int line, const char *text) {
    checks++;
    if (!fact) {
        failed++;
        printf("layout.c:%d: not so: %s\n", line, text);
    }
}
#define CHECK(fact) check((fact), __LINE__, #fact)

/* ---- responses */

static bool is(GateResponse r, uint32_t kind, uint32_t row, uint32_t hour, int64_t value, uint64_t count) {
    return r.kind == kind && r.row == row && r.hour == hour && r.reserved == 0 && r.value == value && r.count == count;
}
static bool accepted(GateResponse r) { return is(r, GATE_ACCEPTED, 0, 0, 0, 0); }
static bool refused(GateResponse r, uint32_t row, uint32_t hour) { return is(r, GATE_REFUSED, row, hour, 0, 0); }
static bool numbered(GateResponse r, int64_t n) { return is(r, GATE_NUMBERED, 0, 0, n, 0); }
static bool figure(GateResponse r, int64_t n) { return is(r, GATE_FIGURE, 0, 0, n, 0); }

/* ---- a session between two canaries */

enum { CANARY = 4096 };
static struct {
    uint8_t before[CANARY];
    GateSession session;
    uint8_t after[CANARY];
} box;
static GateSession *const s = &box.session;

/* What the session's memory holds before it is opened, and the reserved fields of what is passed. */
static uint8_t fill = 0xFF;

static bool all(const uint8_t *bytes, size_t n, uint8_t value) {
    for (size_t i = 0; i < n; i++)
        if (bytes[i] != value) return false;
    return true;
}
static bool canaries(void) { return all(box.before, CANARY, 0x5A) && all(box.after, CANARY, 0xA5); }

/* ---- no struct has padding, so sessions are compared by their bytes */

static bool same32(const uint32_t *a, const uint32_t *b, size_t n) { return memcmp(a, b, n * sizeof *a) == 0; }
static bool same_session(const GateSession *a, const GateSession *b) { return memcmp(a, b, sizeof *a) == 0; }

/* ---- parts of a day */

static const GateDate LONG_DAY = {2006, 10, 29};

static void open_day(GateDate date) {
    memset(&box, fill, sizeof box);
    memset(box.before, 0x5A, CANARY);
    memset(box.after, 0xA5, CANARY);
    static GateOpening o;
    o = gate_open(date);
    CHECK(accepted(o.response));
    box.session = o.session;
}

static GateUnit unit_of(uint32_t number, uint32_t agent, uint32_t border, bool purchase, uint32_t maximum, bool legacy) {
    const GateUnit u = {number, agent, border, maximum, purchase, legacy, false, fill};
    return u;
}

/* A unit's mark "with rights" set. */
static GateUnit marked(GateUnit u) {
    u.rights = true;
    return u;
}

/* A rights notice of so many energies, each hour's one more than the hour's before. */
static GateRights rights_of(uint32_t agent, bool purchase, size_t count, uint32_t energy) {
    GateRights n = {agent, purchase, fill, fill, count, {0}, fill};
    for (uint32_t h = 0; h < GATE_HOURS; h++) n.energies[h] = energy + h;
    return n;
}

static GateKey key_of(bool execution, bool is_default, uint32_t unit, uint32_t contract) {
    const GateKey k = {execution, is_default, fill, unit, contract};
    return k;
}

/* The unit as the session keeps it. */
static bool kept(GateUnit a, GateUnit u) {
    u.reserved = 0;
    return memcmp(&a, &u, sizeof a) == 0;
}

/* A message's fields with some number in every hour of the day. */
static GateFields every_hour(bool execution, bool is_default, uint32_t unit, uint32_t contract, uint32_t energy, uint32_t price) {
    GateFields m;
    memset(&m, 0, sizeof m);
    m.execution = execution;
    m.is_default = is_default;
    m.reserved = fill;
    m.unit = unit;
    m.contract = contract;
    for (uint32_t h = 1; h <= s->hours; h++) {
        m.map |= gate_hour_bit(h);
        m.energies[h - 1] = energy + h;
        m.prices[h - 1] = execution ? 0 : price + h;
    }
    return m;
}

static GateResponse lodge(GateFields m) {
    uint8_t bytes[GATE_MESSAGE + 16];
    memset(bytes, 0xEE, sizeof bytes);
    GateWritten w = gate_write(m, bytes, GATE_MESSAGE);
    CHECK(w.row == 0 && w.reserved == 0 && w.count <= GATE_MESSAGE);
    CHECK(all(bytes + w.count, sizeof bytes - w.count, 0xEE));
    GateReading r = gate_read(bytes, w.count);
    m.reserved = 0;
    CHECK(r.row == 0 && memcmp(&r.fields, &m, sizeof m) == 0);
    return call_lodge(s, bytes, w.count);
}

static GatePublished published(uint32_t energy) {
    GatePublished p = {s->hours, true, fill, fill, {0}};
    for (size_t i = 0; i < s->hours; i++) p.energies[i] = energy + (uint32_t)i;
    return p;
}

/* The figures in the session are those that the queries answer. */
static void figures_agree(void) {
    for (uint32_t h = 1; h <= s->hours; h++) {
        const GateHourFigures *f = &s->figures[h - 1];
        CHECK(figure(gate_price(s, h), f->price));
        for (size_t i = 0; i < s->enrolled; i++) {
            CHECK(figure(gate_matched(s, s->units[i].number, h), f->matched[i]));
            CHECK(figure(gate_executed(s, s->units[i].number, h), f->executed[i]));
        }
        for (uint32_t b = 1; b <= 4; b++) {
            size_t e = gate_direction(b, true);
            size_t i = gate_direction(b, false);
            CHECK(figure(gate_market_balance(s, b, h), (int64_t)f->market[e] - (int64_t)f->market[i]));
            CHECK(figure(gate_bilateral_balance(s, b, h), (int64_t)f->bilateral[e] - (int64_t)f->bilateral[i]));
            for (int export = 0; export <= 1; export++) {
                const GateNotice *c = &s->capacities[gate_direction(b, export)];
                GateResponse market = gate_market_maximum(s, b, export, h);
                GateResponse bilateral = gate_bilateral_maximum(s, b, export, h);
                uint32_t along = f->market[export ? e : i];
                uint32_t against = f->market[export ? i : e];
                CHECK(c->given ? figure(market, f->maxima[export ? e : i]) : is(market, GATE_ABSENT, 0, 0, 0, 0));
                CHECK(c->given ? figure(bilateral, (int64_t)c->energies[h - 1] - (int64_t)along + (int64_t)against) : is(bilateral, GATE_ABSENT, 0, 0, 0, 0));
            }
        }
    }
}

/* The verdicts in the session are those that the query answers. */
static void verdicts_agree(void) {
    for (size_t i = 0; i < s->standing; i++) {
        const GateVerdict *v = &s->verdicts[i];
        GateResponse r = gate_verdict(s, s->lodgements[i].number);
        if (v->accepted) CHECK(accepted(r));
        else if (v->limit == 0) CHECK(is(r, GATE_HIDDEN, 0, 0, 0, 0));
        else CHECK(is(r, GATE_LIMIT, v->limit, v->hour, 0, 0));
    }
}

/* ---- sizes */

/* How many bytes were written: from the first on, over memory of zeros and of ones; 0 if it is not so. */
static size_t written(const uint8_t *zeros, const uint8_t *ones, size_t room) {
    size_t n = 0;
    while (n < room && zeros[n] == ones[n]) n++;
    return all(zeros + n, room - n, 0x00) && all(ones + n, room - n, 0xFF) ? n : 0;
}

/* A struct above 16 bytes is given back through a pointer that goes before the arguments (System V): it is passed by hand here. */
typedef void *IntoForDate(void *, GateDate);
typedef void *IntoForMessage(void *, const uint8_t *, size_t);

static void sizes(void) {
    _Alignas(16) static uint8_t into[2][sizeof(GateOpening) + CANARY];
    IntoForDate *opened = (IntoForDate *)(void (*)(void))gate_open;
    IntoForDate *answered = (IntoForDate *)(void (*)(void))gate_hours;
    IntoForMessage *read = (IntoForMessage *)(void (*)(void))gate_read;
    const uint8_t none[1] = {0};
    for (int of = 0; of < 3; of++) {
        for (int i = 0; i < 2; i++) {
            memset(into[i], i == 0 ? 0x00 : 0xFF, sizeof into[i]);
            if (of == 0) opened(into[i], LONG_DAY);
            if (of == 1) answered(into[i], LONG_DAY);
            if (of == 2) read(into[i], none, 0);
        }
        const size_t size[] = {sizeof(GateOpening), sizeof(GateResponse), sizeof(GateReading)};
        CHECK(written(into[0], into[1], sizeof into[0]) == size[of]);
    }
}

/* ---- the days */

static void dates(void) {
    const GateDate none = {2006, 2, 30};
    static GateOpening o;
    o = gate_open(none);
    CHECK(refused(o.response, GATE_REFUSED_DATE, 0));
    CHECK(o.session.date.year == 2002 && o.session.date.month == 1 && o.session.date.day == 1 && o.session.hours == 24);
    CHECK(refused(gate_hours(none), GATE_REFUSED_DATE, 0));
    const GateDate spring = {2006, 3, 26};
    const GateDate summer = {2006, 6, 1};
    CHECK(figure(gate_hours(LONG_DAY), 25) && figure(gate_hours(spring), 23) && figure(gate_hours(summer), 24));
    for (uint32_t h = 1; h <= 25; h++) {
        GateClockName c = gate_clock(LONG_DAY, h);
        CHECK(c.row == 0 && c.name == (h <= 3 ? h - 1 : h - 2) && c.second == (h == 4) && c.reserved == 0 && c.reserved2 == 0);
        const GateClock clock = {c.name, c.second, fill, fill};
        CHECK(figure(gate_hour(LONG_DAY, clock), h));
    }
    GateClockName c = gate_clock(summer, 25);
    CHECK(c.row == GATE_REFUSED_HOUR && c.name == 0 && !c.second);
    c = gate_clock(none, 1);
    CHECK(c.row == GATE_REFUSED_DATE && c.name == 0 && !c.second);
    const GateClock two = {2, false, fill, fill};
    CHECK(refused(gate_hour(spring, two), GATE_REFUSED_HOUR, 0));
}

/* A session filled to its last places: 64 units, notices of each, 8 directions, 128 lodgements of 25 hours. */
static void full_day(void) {
    open_day(LONG_DAY);
    CHECK(s->date.year == 2006 && s->date.month == 10 && s->date.day == 29 && s->hours == 25);
    CHECK(s->enrolled == 0 && s->standing == 0 && s->last == 0 && !s->closed && !s->cleared);
    static GateSession fresh;
    fresh = *s;
    for (size_t i = 0; i < GATE_LODGEMENTS; i++) CHECK(s->lodgements[i].number == 0 && !s->verdicts[i].accepted);

    for (uint32_t i = 0; i < GATE_UNITS; i++) {
        const GateUnit u = unit_of(1000 + i, 2000 + i, i % 5, i % 2 == 1, 90000 + i, i % 5 != 0 && i % 3 == 0);
        CHECK(accepted(call_register(s, u)));
        CHECK(s->enrolled == i + 1 && kept(s->units[i], u));
    }
    CHECK(refused(call_register(s, unit_of(1, 1, 0, false, 1, false)), GATE_REFUSED_FULL, 0));
    for (uint32_t i = 0; i < GATE_UNITS; i++) {
        GateUnavailability n = {25, 1000 + i, {0}};
        for (uint32_t h = 0; h < 25; h++) n.energies[h] = 80000 + 100 * i + h;
        CHECK(accepted(call_unavailability(s, n)));
        CHECK(s->notices[i].given && same32(s->notices[i].energies, n.energies, 25));
        n.count = 24;
        CHECK(refused(call_unavailability(s, n), GATE_REFUSED_HOUR, 0));
        n.count = SIZE_MAX;
        CHECK(refused(call_unavailability(s, n), GATE_REFUSED_HOUR, 0));
    }
    GateCapacities c;
    memset(&c, 0, sizeof c);
    for (size_t d = 0; d < GATE_DIRECTIONS; d++) c.directions[d] = published(30000 + 1000 * (uint32_t)d);
    CHECK(accepted(call_capacity(s, c)));
    for (size_t d = 0; d < GATE_DIRECTIONS; d++) CHECK(s->capacities[d].given && same32(s->capacities[d].energies, c.directions[d].energies, 25));

    for (uint32_t i = 0; i < GATE_LODGEMENTS; i++) {
        GateFields m = every_hour(false, i >= GATE_UNITS, 1000 + i % GATE_UNITS, 0, 100 + i, 3000 + 10 * i);
        CHECK(numbered(lodge(m), i + 1));
        const GateLodgement *l = &s->lodgements[i];
        CHECK(s->standing == i + 1 && s->last == i + 1 && l->number == i + 1);
        CHECK(!l->key.execution && l->key.is_default == (i >= GATE_UNITS) && l->key.unit == m.unit && l->key.contract == 0);
        CHECK(same32(s->energies[i].energies, m.energies, 25) && same32(s->energies[i].prices, m.prices, 25));
    }
    CHECK(refused(lodge(every_hour(true, false, 1001, 7, 10, 0)), GATE_REFUSED_FULL, 0));
    const GateKey key = key_of(false, false, 1063, 0);
    CHECK(accepted(call_annul(s, key)));
    CHECK(s->standing == 127 && s->last == 128 && s->lodgements[63].number == 65);
    CHECK(refused(call_annul(s, key), GATE_REFUSED_ABSENT, 0));
    CHECK(numbered(lodge(every_hour(true, false, 1001, 65535, 10, 0)), 129));
    CHECK(s->lodgements[127].key.execution && s->lodgements[127].key.contract == 65535 && s->lodgements[127].number == 129);
    CHECK(canaries());

    CHECK(refused(gate_verdict(s, 1), GATE_REFUSED_GATE, 0));
    CHECK(refused(call_clear(s), GATE_REFUSED_GATE, 0));
    CHECK(accepted(call_close(s)));
    CHECK(s->closed && !s->cleared);
    verdicts_agree();
    CHECK(accepted(gate_verdict(s, 1)) && is(gate_verdict(s, 65), GATE_HIDDEN, 0, 0, 0, 0) && accepted(gate_verdict(s, 128)));
    CHECK(refused(gate_verdict(s, 64), GATE_REFUSED_ABSENT, 0) && refused(gate_verdict(s, 0), GATE_REFUSED_ABSENT, 0));
    CHECK(refused(gate_price(s, 1), GATE_REFUSED_GATE, 0));
    GateResponse r = call_clear(s);
    CHECK(r.kind == GATE_STEPS && r.row == 0 && r.hour == 0 && r.value == 0);
    CHECK(s->closed && s->cleared);
    figures_agree();
    CHECK(canaries());
    static GateSession copy;
    copy = *s;
    CHECK(refused(call_clear(&copy), GATE_REFUSED_GATE, 0) && same_session(&copy, s) && !same_session(&fresh, s));
}

/* Whether the session has no rights for the unit at an index. */
static bool no_rights(size_t index) {
    const uint32_t none[GATE_HOURS] = {0};
    return !s->rights[index].given && same32(s->rights[index].energies, none, GATE_HOURS);
}

/* K1: units with rights at the last indices, the rights of an agent and side at each of its French units, and limit 15. */
static void rights(void) {
    open_day(LONG_DAY);
    for (uint32_t i = 0; i < GATE_UNITS - 2; i++) CHECK(accepted(call_register(s, unit_of(1000 + i, 2000 + i, i % 5, true, 90000, false))));
    const GateUnit sale = unit_of(7, 2001, GATE_FRANCE, false, 500, true);
    const GateUnit with = marked(unit_of(8, 2001, GATE_FRANCE, true, 500, true));
    CHECK(refused(call_register(s, marked(unit_of(8, 2001, GATE_FRANCE, false, 500, false))), GATE_REFUSED_RIGHTS, 0));
    CHECK(refused(call_register(s, marked(unit_of(8, 2002, GATE_ANDORRA, true, 500, false))), GATE_REFUSED_RANGE, 0));
    CHECK(refused(call_register(s, marked(unit_of(8, 2000, GATE_DOMESTIC, true, 500, false))), GATE_REFUSED_RANGE, 0));
    for (size_t i = 0; i < GATE_UNITS; i++) CHECK(no_rights(i));

    /* France's purchase of agent 2001 stands at index 1: its rights before the unit with rights is there. */
    GateRights n = rights_of(2001, true, 25, 300);
    CHECK(accepted(call_rights(s, n)));
    CHECK(s->rights[1].given && same32(s->rights[1].energies, n.energies, 25));
    CHECK(accepted(call_register(s, sale)) && accepted(call_register(s, with)));
    CHECK(s->enrolled == GATE_UNITS && kept(s->units[62], sale) && kept(s->units[63], with) && !s->units[62].rights && s->units[63].rights);
    CHECK(no_rights(62) && s->rights[63].given && same32(s->rights[63].energies, n.energies, 25));
    CHECK(refused(call_register(s, marked(unit_of(9, 2001, GATE_FRANCE, true, 500, false))), GATE_REFUSED_SECOND, 0));

    /* A later notice, of both units of the side; refused ones change nothing. */
    static GateSession before;
    n = rights_of(2001, true, 25, 200);
    CHECK(accepted(call_rights(s, n)));
    before = *s;
    CHECK(refused(call_rights(s, rights_of(2001, true, 24, 1)), GATE_REFUSED_HOUR, 0));
    CHECK(refused(call_rights(s, rights_of(0, true, SIZE_MAX, 100000)), GATE_REFUSED_HOUR, 0));
    CHECK(refused(call_rights(s, rights_of(0, true, 25, 1)), GATE_REFUSED_RANGE, 0));
    CHECK(refused(call_rights(s, rights_of(65536, true, 25, 1)), GATE_REFUSED_RANGE, 0));
    CHECK(refused(call_rights(s, rights_of(2001, true, 25, 99976)), GATE_REFUSED_RANGE, 0));
    CHECK(refused(call_rights(s, rights_of(2002, true, 25, 1)), GATE_REFUSED_UNIT, 0));
    CHECK(refused(call_rights(s, rights_of(2006, false, 25, 1)), GATE_REFUSED_UNIT, 0));
    CHECK(same_session(&before, s));
    for (size_t i = 0; i < GATE_UNITS; i++) CHECK(i == 1 || i == 63 ? s->rights[i].given && same32(s->rights[i].energies, n.energies, 25) : no_rights(i));
    GateRights sold = rights_of(2001, false, 25, 0);
    CHECK(accepted(call_rights(s, sold)));
    CHECK(s->rights[62].given && same32(s->rights[62].energies, sold.energies, 25) && same32(s->rights[1].energies, n.energies, 25));

    /* Limit 15 is 200 in hour 1 and one more in each hour that follows. */
    CHECK(numbered(lodge(every_hour(false, false, 8, 0, 199, 3000)), 1));
    CHECK(refused(lodge(every_hour(false, false, 8, 0, 200, 3000)), GATE_REFUSED_RIGHTS, 1));
    CHECK(accepted(call_rights(s, rights_of(2001, true, 25, 199))));
    CHECK(accepted(call_close(s)));
    verdicts_agree();
    CHECK(is(gate_verdict(s, 1), GATE_LIMIT, GATE_REFUSED_RIGHTS, 1, 0, 0));
    CHECK(refused(call_rights(s, n), GATE_REFUSED_GATE, 0));
    CHECK(canaries());
}

/* A message's fields with the same energy and price in every hour of the day. */
static GateFields flat(uint32_t unit, uint32_t contract, uint32_t energy, uint32_t price) {
    GateFields m = every_hour(contract != 0, false, unit, contract, energy, price);
    for (uint32_t h = 0; h < s->hours; h++) {
        m.energies[h] = energy;
        m.prices[h] = price;
    }
    return m;
}

static GatePublished line_of(uint32_t energy) {
    GatePublished p = published(0);
    for (size_t i = 0; i < s->hours; i++) p.energies[i] = energy;
    return p;
}

/* K2: each border's loss at its place, refused ones that change nothing, a border sum that is brought, and case 12 with a loss of 2,000 beside
 * a Portuguese border with one of 1,500. */
static void losses(void) {
    const GateDate spring = {2006, 3, 26};
    open_day(spring);
    for (uint32_t b = 0; b <= 4; b++) CHECK(s->losses[b] == 0);
    for (uint32_t b = 1; b <= 4; b++) CHECK(accepted(call_loss(s, (GateLoss){b, 500 * b})));
    for (uint32_t b = 0; b <= 4; b++) CHECK(s->losses[b] == 500 * b);
    static GateSession before;
    before = *s;
    const GateLoss none[] = {{0, 0}, {0, 1}, {5, 0}, {UINT32_MAX, 1}, {1, GATE_MAX_LOSS + 1}, {4, UINT32_MAX}, {2, UINT32_MAX - 9999}};
    for (size_t i = 0; i < sizeof none / sizeof *none; i++) CHECK(refused(call_loss(s, none[i]), GATE_REFUSED_RANGE, 0));
    CHECK(same_session(&before, s));
    CHECK(accepted(call_loss(s, (GateLoss){GATE_FRANCE, GATE_MAX_LOSS})) && accepted(call_loss(s, (GateLoss){GATE_ANDORRA, 0})));
    CHECK(s->losses[0] == 0 && s->losses[1] == 2000 && s->losses[2] == 0 && s->losses[3] == 1500 && s->losses[4] == 2000 && s->reserved3 == 0);

    const GateUnit units[] = {
        unit_of(1, 1, GATE_DOMESTIC, false, 99999, false), unit_of(2, 2, GATE_DOMESTIC, true, 99999, false), unit_of(3, 3, GATE_FRANCE, true, 99999, false),
        unit_of(4, 4, GATE_FRANCE, true, 99999, false),    unit_of(5, 5, GATE_PORTUGAL, true, 99999, false), unit_of(6, 6, GATE_PORTUGAL, false, 99999, false),
    };
    for (size_t i = 0; i < 6; i++) CHECK(accepted(call_register(s, units[i])));
    GateCapacities c;
    memset(&c, 0, sizeof c);
    c.directions[gate_direction(GATE_FRANCE, true)] = line_of(100);
    c.directions[gate_direction(GATE_PORTUGAL, true)] = line_of(30);
    c.directions[gate_direction(GATE_PORTUGAL, false)] = line_of(41);
    CHECK(accepted(call_capacity(s, c)));
    CHECK(s->losses[1] == 2000 && s->losses[3] == 1500);
    CHECK(numbered(lodge(flat(1, 0, 900, 3000)), 1) && numbered(lodge(flat(3, 0, 150, 5000)), 2));
    CHECK(numbered(lodge(flat(2, 0, 100, 4000)), 3) && numbered(lodge(flat(4, 12, 60, 0)), 4));
    /* 71 x 1.15 = 81.65; what is sold keeps 71. */
    CHECK(refused(lodge(flat(5, 0, 82, 5000)), GATE_REFUSED_BORDER, 1) && numbered(lodge(flat(5, 0, 81, 5000)), 5));
    CHECK(refused(lodge(flat(6, 0, 72, 18030)), GATE_REFUSED_BORDER, 1) && numbered(lodge(flat(6, 0, 71, 18030)), 6));
    CHECK(accepted(call_close(s)));
    verdicts_agree();
    before = *s;
    CHECK(refused(call_loss(s, (GateLoss){1, 0}), GATE_REFUSED_GATE, 0) && refused(call_loss(s, (GateLoss){0, UINT32_MAX}), GATE_REFUSED_GATE, 0));
    CHECK(same_session(&before, s));
    CHECK(is(call_clear(s), GATE_STEPS, 0, 0, 0, 23));
    for (uint32_t h = 1; h <= 23; h++) {
        CHECK(figure(gate_market_maximum(s, GATE_FRANCE, true, h), 71) && figure(gate_market_balance(s, GATE_FRANCE, h), 71));
        CHECK(figure(gate_matched(s, 3, h), 85) && figure(gate_executed(s, 4, h), 34));
        CHECK(figure(gate_bilateral_maximum(s, GATE_FRANCE, true, h), 29) && figure(gate_bilateral_balance(s, GATE_FRANCE, h), 29));
        /* 81 counts 71 (70.4), of which 30 are left: 34 (34.5). */
        CHECK(figure(gate_market_balance(s, GATE_PORTUGAL, h), 30) && figure(gate_matched(s, 5, h), 34));
        CHECK(figure(gate_matched(s, 1, h), 219) && figure(gate_matched(s, 2, h), 100));
    }
    figures_agree();
    CHECK(canaries());
}

/* Losses that no call sets, near 2 to the 32nd, in a session: nothing is promised of the answers, but every call returns, and writes nothing
 * beside the session. */
static void large_losses(void) {
    const uint32_t numbers[] = {GATE_MAX_LOSS + 1, UINT32_MAX - 10000, UINT32_MAX - 9999, UINT32_MAX};
    for (size_t i = 0; i < sizeof numbers / sizeof *numbers; i++) {
        open_day(LONG_DAY);
        CHECK(accepted(call_register(s, unit_of(1, 1, GATE_DOMESTIC, false, 99999, false))));
        CHECK(accepted(call_register(s, unit_of(2, 2, GATE_FRANCE, true, 99999, false))));
        CHECK(accepted(call_register(s, unit_of(3, 3, GATE_MOROCCO, true, 99999, true))));
        GateCapacities c;
        memset(&c, 0, sizeof c);
        for (uint32_t b = 1; b <= 4; b++) {
            c.directions[gate_direction(b, true)] = line_of(99999);
            c.directions[gate_direction(b, false)] = line_of(99999);
        }
        CHECK(accepted(call_capacity(s, c)));
        for (uint32_t b = 0; b <= 4; b++) s->losses[b] = numbers[i];
        CHECK(numbered(lodge(flat(1, 0, 99999, 3000)), 1));
        lodge(flat(2, 0, 99999, 5000));
        lodge(flat(3, 0, 99999, 18030));
        lodge(flat(2, 12, 99999, 0));
        c.directions[gate_direction(GATE_FRANCE, true)] = c.directions[gate_direction(GATE_MOROCCO, true)] = line_of(0);
        CHECK(accepted(call_capacity(s, c)));
        call_close(s);
        call_clear(s);
        for (uint32_t b = 0; b <= 5; b++) {
            gate_market_balance(s, b, 1);
            gate_bilateral_balance(s, b, 25);
            gate_market_maximum(s, b, true, 1);
            gate_bilateral_maximum(s, b, false, 25);
        }
        for (uint32_t number = 0; number <= 5; number++) gate_verdict(s, number);
        for (uint32_t b = 0; b <= 4; b++) CHECK(s->losses[b] == numbers[i]);
        CHECK(canaries());
    }
}

/* Document 01's case 12 in every hour of the short day, and below zero: the market exports more than the capacity, since executions import. */
static void cuts(void) {
    const GateDate spring = {2006, 3, 26};
    open_day(spring);
    const GateUnit units[] = {
        unit_of(1, 1, GATE_DOMESTIC, false, 99999, false), unit_of(2, 2, GATE_DOMESTIC, true, 99999, false),
        unit_of(3, 3, GATE_FRANCE, true, 99999, false),    unit_of(4, 4, GATE_FRANCE, true, 99999, false),
        unit_of(5, 5, GATE_MOROCCO, true, 99999, false),   unit_of(6, 6, GATE_MOROCCO, false, 99999, false),
    };
    for (size_t i = 0; i < 6; i++) CHECK(accepted(call_register(s, units[i])));
    GateCapacities c;
    memset(&c, 0, sizeof c);
    c.directions[gate_direction(GATE_FRANCE, true)] = published(100);
    c.directions[gate_direction(GATE_MOROCCO, true)] = published(10);
    for (size_t i = 0; i < GATE_HOURS; i++) {
        c.directions[gate_direction(GATE_FRANCE, true)].energies[i] = 100;
        c.directions[gate_direction(GATE_MOROCCO, true)].energies[i] = 10;
    }
    CHECK(accepted(call_capacity(s, c)));
    GateFields m;
    memset(&m, 0, sizeof m);
    struct {
        uint32_t unit, contract, energy, price;
    } lodged[] = {{1, 0, 900, 3000}, {3, 0, 150, 5000}, {2, 0, 100, 4000}, {4, 12, 60, 0}, {5, 0, 40, 9000}, {6, 13, 30, 0}};
    for (size_t i = 0; i < 6; i++) {
        memset(&m, 0, sizeof m);
        m.execution = lodged[i].contract != 0;
        m.unit = lodged[i].unit;
        m.contract = lodged[i].contract;
        for (uint32_t h = 1; h <= 23; h++) {
            m.map |= gate_hour_bit(h);
            m.energies[h - 1] = lodged[i].energy;
            m.prices[h - 1] = lodged[i].price;
        }
        CHECK(numbered(lodge(m), (int64_t)i + 1));
    }
    m.energies[22] = 99999;
    m.energies[21] = 99999;
    m.contract = 14;
    m.map &= ~gate_hour_bit(1);
    m.energies[0] = 0;
    CHECK(numbered(lodge(m), 7));
    const GateKey key = key_of(true, false, 6, 14);
    CHECK(accepted(call_annul(s, key)));
    CHECK(accepted(call_close(s)));
    verdicts_agree();
    CHECK(is(call_clear(s), GATE_STEPS, 0, 0, 0, 23));
    for (uint32_t h = 1; h <= 23; h++) {
        CHECK(figure(gate_market_maximum(s, GATE_FRANCE, true, h), 71));
        CHECK(figure(gate_matched(s, 3, h), 71));
        CHECK(figure(gate_executed(s, 4, h), 29));
        CHECK(figure(gate_bilateral_maximum(s, GATE_MOROCCO, true, h), -30));
        CHECK(figure(gate_bilateral_balance(s, GATE_MOROCCO, h), -30));
    }
    CHECK(refused(gate_price(s, 24), GATE_REFUSED_HOUR, 0));
    CHECK(refused(gate_matched(s, 1, 0), GATE_REFUSED_HOUR, 0));
    CHECK(refused(gate_matched(s, 99, 1), GATE_REFUSED_UNIT, 0));
    CHECK(refused(gate_executed(s, 70000, 1), GATE_REFUSED_RANGE, 0));
    CHECK(refused(gate_market_balance(s, 0, 1), GATE_REFUSED_RANGE, 0));
    CHECK(refused(gate_bilateral_maximum(s, 5, true, 1), GATE_REFUSED_RANGE, 0));
    figures_agree();
    CHECK(canaries());
}

/* A message of every hour with one bit turned, for each bit: lodging refuses it as reading does, and on any refusal the session stays. */
static void each_bit(void) {
    uint8_t bytes[GATE_MESSAGE];
    CHECK(gate_write(every_hour(false, false, 7, 0, 200, 18000), bytes, sizeof bytes).count == GATE_MESSAGE);
    static GateSession scratch;
    unsigned rows[16] = {0};
    for (size_t bit = 0; bit < 8 * GATE_MESSAGE; bit++) {
        scratch = *s;
        bytes[bit / 8] ^= (uint8_t)(0x80 >> bit % 8);
        GateReading r = gate_read(bytes, sizeof bytes);
        GateResponse a = call_lodge(&scratch, bytes, sizeof bytes);
        bytes[bit / 8] ^= (uint8_t)(0x80 >> bit % 8);
        if (a.kind == GATE_REFUSED) CHECK(same_session(&scratch, s) && (r.row == 0 ? a.row >= GATE_REFUSED_UNIT : is(a, GATE_REFUSED, r.row, 0, 0, 0)));
        else CHECK(numbered(a, 1) && r.row == 0 && scratch.standing == 1);
        rows[a.row]++;
    }
    CHECK(rows[0] > 0 && rows[GATE_REFUSED_FORM] > 0 && rows[GATE_REFUSED_RANGE] > 0 && rows[GATE_REFUSED_UNIT] > 0 && rows[GATE_REFUSED_MAXIMUM] > 0);
}

/* Any bytes may be passed as a message, of any length; a refused call leaves the session as it was. */
static void any_bytes(void) {
    open_day(LONG_DAY);
    const GateUnit u = unit_of(7, 7, GATE_FRANCE, true, 300, false);
    CHECK(accepted(call_register(s, u)));
    const GateUnit bad[] = {
        unit_of(0, 1, 0, false, 1, false),      unit_of(8, 70000, 0, false, 1, false), unit_of(8, 8, 5, false, 1, false),
        unit_of(8, 8, 0, false, 100000, false), unit_of(8, 8, 0, false, 1, true),
    };
    for (size_t i = 0; i < 5; i++) CHECK(refused(call_register(s, bad[i]), GATE_REFUSED_RANGE, 0));
    CHECK(refused(call_register(s, u), GATE_REFUSED_TAKEN, 0));
    CHECK(refused(call_register(s, unit_of(8, 7, GATE_FRANCE, true, 300, true)), GATE_REFUSED_SECOND, 0));
    static GateSession before;
    before = *s;
    uint64_t seed = 1;
    unsigned refusals = 0;
    for (unsigned i = 0; i < 20000; i++) {
        uint8_t bytes[160];
        for (size_t k = 0; k < sizeof bytes; k++) {
            seed = seed * 6364136223846793005u + 1442695040888963407u;
            bytes[k] = (uint8_t)(seed >> 56);
        }
        bytes[0] = i % 2 == 0 ? bytes[0] : (uint8_t)(0x10 | (bytes[0] & 0x06));
        GateReading r = gate_read(bytes, i % sizeof bytes);
        GateResponse a = call_lodge(s, bytes, i % sizeof bytes);
        refusals += a.kind == GATE_REFUSED && (r.row == 0 ? a.row >= 6 : a.row == r.row);
    }
    CHECK(refusals == 20000);
    CHECK(same_session(&before, s));
    each_bit();
    GateFields m = every_hour(false, false, 7, 0, 276, 18005);
    uint8_t bytes[GATE_MESSAGE];
    memset(bytes, 0xEE, sizeof bytes);
    for (size_t room = 0; room < GATE_MESSAGE; room++) {
        GateWritten w = gate_write(m, bytes, room);
        CHECK(w.row == GATE_REFUSED_SHORT && w.count == 0);
    }
    CHECK(all(bytes, sizeof bytes, 0xEE));
    CHECK(refused(lodge(m), GATE_REFUSED_MAXIMUM, 25));
    CHECK(same_session(&before, s));
    m.prices[0] = 18031;
    GateWritten w = gate_write(m, bytes, sizeof bytes);
    CHECK(w.row == GATE_REFUSED_RANGE && w.count == 0 && all(bytes, sizeof bytes, 0xEE));
    m.map = 0;
    w = gate_write(m, bytes, sizeof bytes);
    CHECK(w.row == GATE_REFUSED_HOUR && w.count == 0 && all(bytes, sizeof bytes, 0xEE));
    CHECK(canaries());
}

/* ---- all of it on a stack that was painted before */

static void *all_days(void *unused) {
    sizes();
    dates();
    full_day();
    static GateSession first;
    first = *s;
    fill = 0x00;
    full_day();
    CHECK(same_session(&first, s));
    fill = 0xFF;
    rights();
    first = *s;
    fill = 0x00;
    rights();
    CHECK(same_session(&first, s));
    fill = 0xFF;
    losses();
    first = *s;
    fill = 0x00;
    losses();
    CHECK(same_session(&first, s));
    large_losses();
    cuts();
    any_bytes();
    return unused;
}

int main(void) {
    CHECK(gate_matches() && gate_version() == GATE_VERSION && gate_session_size() == sizeof(GateSession));
    enum { ROOM = 4 * GATE_STACK };
    uint8_t *stack = aligned_alloc(4096, ROOM);
    if (stack == NULL) return 2;
    memset(stack, 0xC3, ROOM);
    pthread_attr_t attributes;
    pthread_t thread;
    if (pthread_attr_init(&attributes) != 0 || pthread_attr_setstack(&attributes, stack, ROOM) != 0) return 2;
    if (pthread_create(&thread, &attributes, all_days, NULL) != 0 || pthread_join(thread, NULL) != 0) return 2;
    size_t untouched = 0;
    while (untouched < ROOM && stack[untouched] == 0xC3) untouched++;
    CHECK(ROOM - untouched <= GATE_STACK);
    free(stack);
    printf("stack used: %zu bytes\nlayout: %lu checks, %lu failed\n", ROOM - untouched, checks, failed);
    return failed == 0 ? 0 : 1;
}
