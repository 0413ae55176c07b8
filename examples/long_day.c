/*
 * The long day 2006-10-29 through the C interface (include/gate.h): 25 hours, two of them, 3 and 4, named two o'clock.
 * The same day as examples/long-day.day.
 *
 *   tests/c/archive && cc -Iinclude examples/long_day.c target/staticlib/libgate.a -o long_day && ./long_day
 */
#include "gate.h"

#include <stdio.h>
#include <string.h>

/* What a response says, on one line. */
static void say(const char *what, GateResponse r) {
    printf("%-44s ", what);
    switch (r.kind) {
    case GATE_ACCEPTED: printf("accepted\n"); break;
    case GATE_REFUSED:
        printf("refused %u", (unsigned)r.row);
        if (r.hour != 0) printf(" in hour %u", (unsigned)r.hour);
        printf("\n");
        break;
    case GATE_NUMBERED: printf("number %lld\n", (long long)r.value); break;
    case GATE_STEPS: printf("cleared in %llu steps\n", (unsigned long long)r.count); break;
    case GATE_HIDDEN: printf("hidden\n"); break;
    case GATE_LIMIT: printf("limit %u in hour %u\n", (unsigned)r.row, (unsigned)r.hour); break;
    case GATE_FIGURE: printf("%lld\n", (long long)r.value); break;
    case GATE_ABSENT: printf("none\n"); break;
    default: printf("kind %u\n", (unsigned)r.kind); break;
    }
}

/* Names an hour in a message's fields. */
static void name_hour(GateFields *m, uint32_t hour, uint32_t energy, uint32_t price) {
    m->map |= gate_hour_bit(hour);
    m->energies[hour - 1] = energy;
    m->prices[hour - 1] = price;
}

/* Writes the message of some fields and lodges it. */
static GateResponse lodge(GateSession *s, GateFields m) {
    uint8_t message[GATE_MESSAGE];
    GateWritten w = gate_write(m, message, sizeof message);
    if (w.row != 0) {
        GateResponse r = {.kind = GATE_REFUSED, .row = w.row};
        return r;
    }
    return gate_lodge(s, message, w.count);
}

/* An offer of hours 3 and 4; an energy of 0 leaves the hour out. */
static GateFields offer(uint32_t unit, uint32_t energy3, uint32_t price3, uint32_t energy4, uint32_t price4) {
    GateFields m;
    memset(&m, 0, sizeof m);
    m.unit = unit;
    if (energy3 != 0) name_hour(&m, 3, energy3, price3);
    if (energy4 != 0) name_hour(&m, 4, energy4, price4);
    return m;
}

/* An execution of a contract in hours 3 and 4. */
static GateFields execution(uint32_t unit, uint32_t contract, uint32_t energy3, uint32_t energy4) {
    GateFields m = offer(unit, energy3, 0, energy4, 0);
    m.execution = true;
    m.contract = contract;
    return m;
}

/* Publishes a direction of a capacity notice: the same energy in every hour of the day. */
static void publish(GateCapacities *n, uint32_t border, bool is_export, size_t hours, uint32_t energy) {
    GatePublished *p = &n->directions[gate_direction(border, is_export)];
    p->published = true;
    p->count = hours;
    for (size_t i = 0; i < hours; i++) p->energies[i] = energy;
}

static void register_units(GateSession *s) {
    const GateUnit units[] = {
        {.number = 1, .agent = 10, .border = GATE_DOMESTIC, .maximum = 500},                   /* sells at home */
        {.number = 2, .agent = 20, .border = GATE_DOMESTIC, .maximum = 200, .purchase = true}, /* 2 and 9 buy there */
        {.number = 9, .agent = 90, .border = GATE_DOMESTIC, .maximum = 60, .purchase = true},
        {.number = 7, .agent = 70, .border = GATE_FRANCE, .maximum = 300, .purchase = true},   /* buys for France */
        {.number = 8, .agent = 80, .border = GATE_PORTUGAL, .maximum = 100, .purchase = true}, /* buys for Portugal */
    };
    for (size_t i = 0; i < sizeof units / sizeof units[0]; i++) say("register", gate_register(s, units[i]));
    say("register unit 7 again", gate_register(s, units[3]));
}

int main(void) {
    if (!gate_matches()) return 2; /* the archive is of another version than the header */
    const GateDate date = {2006, 10, 29};
    GateOpening opening = gate_open(date);
    GateSession *s = &opening.session;
    say("open 2006-10-29", opening.response);
    say("hours", gate_hours(date));
    for (uint32_t hour = 2; hour <= 5; hour++) {
        GateClockName c = gate_clock(date, hour);
        printf("hour %u starts at %u o'clock%s\n", (unsigned)hour, (unsigned)c.name, c.second ? ", the second" : "");
    }
    const GateClock second_two = {.name = 2, .second = true};
    say("the second two o'clock is hour", gate_hour(date, second_two));

    register_units(s);

    /* The line to France carries 100 in hour 3 and 40 in hour 4. A notice of 24 energies is no notice of this day. */
    GateCapacities notice;
    memset(&notice, 0, sizeof notice);
    publish(&notice, GATE_FRANCE, true, 24, 500);
    say("capacity of 24 hours", gate_capacity(s, notice));
    publish(&notice, GATE_FRANCE, true, s->hours, 500);
    notice.directions[gate_direction(GATE_FRANCE, true)].energies[3 - 1] = 100;
    notice.directions[gate_direction(GATE_FRANCE, true)].energies[4 - 1] = 40;
    publish(&notice, GATE_PORTUGAL, true, s->hours, 20);
    publish(&notice, GATE_PORTUGAL, false, s->hours, 20);
    say("capacity", gate_capacity(s, notice));

    /* Lodged in both two o'clocks, with different energies: document 01's own message for unit 7. */
    say("offer of unit 1", lodge(s, offer(1, 300, 3000, 150, 3500)));
    const uint8_t message[] = {0x10, 0x00, 0x0E, 0x00, 0x00, 0x60, 0x00, 0x00, 0x00, 0x3C, 0x11, 0x94, 0x00, 0x2F, 0x91, 0x30};
    GateReading reading = gate_read(message, sizeof message);
    printf("a message of unit %u: %u at %u in hour 3, %u at %u in hour 4\n", (unsigned)reading.fields.unit,
           (unsigned)reading.fields.energies[2], (unsigned)reading.fields.prices[2], (unsigned)reading.fields.energies[3],
           (unsigned)reading.fields.prices[3]);
    say("lodged", gate_lodge(s, message, sizeof message));
    say("the same, a byte short", gate_lodge(s, message, sizeof message - 1));
    say("offer of unit 2", lodge(s, offer(2, 60, 4000, 30, 4200)));

    /* A normal lodgement hides the default of its unit. */
    GateFields standing = offer(9, 50, 9000, 50, 9000);
    standing.is_default = true;
    say("default offer of unit 9", lodge(s, standing));
    say("offer of unit 9", lodge(s, offer(9, 10, 5000, 0, 0)));

    /* The ceiling at Portugal's border is the sum of its two capacities, 20 + 20. */
    say("contract 12 of unit 8", lodge(s, execution(8, 12, 30, 30)));
    say("contract 13 of unit 8", lodge(s, execution(8, 13, 40, 41)));

    /* A late notice leaves 10 + 10 in hour 4: at closing contract 12 is above it there. */
    notice.directions[gate_direction(GATE_PORTUGAL, true)].energies[4 - 1] = 10;
    notice.directions[gate_direction(GATE_PORTUGAL, false)].energies[4 - 1] = 10;
    say("a late capacity notice", gate_capacity(s, notice));

    say("clear, before closing", gate_clear(s));
    say("close", gate_close(s));
    say("verdict of 2", gate_verdict(s, 2));
    say("verdict of 4", gate_verdict(s, 4));
    say("verdict of 6", gate_verdict(s, 6));
    say("verdict of 99", gate_verdict(s, 99));
    say("offer of unit 2, after closing", lodge(s, offer(2, 70, 4000, 0, 0)));

    /* France would get 120 and 95, and the line carries 100 and 40: a step of withdrawal in each hour. */
    say("clear", gate_clear(s));
    for (uint32_t hour = 3; hour <= 4; hour++) {
        printf("hour %u\n", (unsigned)hour);
        say("  matched for France, unit 7", gate_matched(s, 7, hour));
        say("  market balance of France", gate_market_balance(s, GATE_FRANCE, hour));
        say("  sold by unit 1", gate_matched(s, 1, hour));
        say("  executed by unit 8", gate_executed(s, 8, hour));
        say("  balance of Portugal's executions", gate_bilateral_balance(s, GATE_PORTUGAL, hour));
        say("  market maximum to France", gate_market_maximum(s, GATE_FRANCE, true, hour));
        say("  market maximum from France", gate_market_maximum(s, GATE_FRANCE, false, hour));
        say("  bilateral maximum to France", gate_bilateral_maximum(s, GATE_FRANCE, true, hour));
        say("  price", gate_price(s, hour));
    }
    return 0;
}
