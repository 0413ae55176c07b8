/*
 * The day-ahead market gate, proved (README.md): one session takes one delivery day of 23, 24 or 25 hours from the first
 * lodgement to the balances at the borders. The rules are document 01; every function of the archive is proved to answer by them.
 * The inline helpers are plain C; that the structs lie as declared, and the stack that a call uses, are tested (tests/c).
 *
 * Build, at the root of the repository:
 *         tests/c/archive                          proves the gate, makes target/staticlib/libgate.a (x86-64, System V calling convention)
 *         cc -Iinclude program.c target/staticlib/libgate.a -o program
 *
 * First:  gate_matches(), false where the archive is of another version than this header.
 * A day:  gate_open, then gate_register, gate_capacity, gate_unavailability, gate_rights, gate_loss, gate_lodge and gate_annul in any
 *         order and number (a unit is registered before it is named), then gate_close, then gate_clear; gate_verdict from closing on, the
 *         other queries from clearing on. A call that comes too early or too late is refused and changes nothing.
 *
 * Ownership. The caller owns every struct, message and buffer. Nothing is kept after a call returns, nothing is allocated, there
 * is no global state, and nothing is called but memcpy, memmove and memset: no system call, no callback. A session is plain data:
 * it may be copied with =, written to a file and read back by the same build, and dropped at any time. A call that changes a
 * session needs it for itself while it runs; queries may share it; different sessions may be used by different threads at once.
 * A call uses at most GATE_STACK bytes of the calling thread's stack.
 *
 * What may be passed. Any bytes may be passed as a message, and any numbers as arguments: what is wrong is refused by the table
 * below, its first row first. Two things are owed by the caller: a pointer is to what its type says (a message and a buffer
 * to at least `length` bytes; not NULL, also where a length is 0; neither overlaps the session), and a bool is 0 or 1. The
 * promises are of the sessions that gate_open and the calls leave. A call on any other session returns too, and nothing is promised of
 * its answer.
 *
 * No struct has padding: where one would have it stands a field `reserved`. It is not looked at in what is passed, and 0 in what is
 * given back and in a session, so that two equal histories leave sessions of equal bytes, which memcmp compares.
 *
 * Units of measure: energy in tenths of a MWh, 0 to 99,999; price in hundredths of a euro per MWh, 0 to 18,030. An hour is a number, 1 to
 * the day's 23, 24 or 25, never a clock name. Balances are exports less imports. A maximum is counted in its own direction: one
 * of imports bounds the balance negated. At a border a sale is an import, a purchase an export. A loss is in hundredths of a percent,
 * 0 to 2,000. Capacities, balances and maxima are counted at the border: an export of e, of one lodgement in one hour, counts there
 * e x 10,000 / (10,000 + loss), rounded up, an import what it is. A unit's energies, matched or executed, are not counted so.
 */
#ifndef GATE_H
#define GATE_H

#include <stdbool.h>
#include <stddef.h>
#include <stdint.h>

#ifdef __cplusplus
extern "C" {
#define GATE_ASSERT(fact) static_assert(fact, #fact)
#else
#define GATE_ASSERT(fact) _Static_assert(fact, #fact)
#endif

/* ------------------------------------------------------------------------------------------------ version */

/* Of this header. It rises with each change of a name, a struct or a meaning; a session of one version is not one of another. */
#define GATE_VERSION 4

/* ------------------------------------------------------------------------------------------------ sizes */

enum {
    GATE_UNITS = 64,          /* units in a session */
    GATE_LODGEMENTS = 128,    /* standing lodgements */
    GATE_NUMBERS = 65535,     /* highest number of a unit, an agent, a contract, a lodgement */
    GATE_HOURS = 25,          /* hours of the longest day */
    GATE_DIRECTIONS = 8,      /* export and import of the four borders: see gate_direction */
    GATE_MAX_ENERGY = 99999,
    GATE_MAX_PRICE = 18030,
    GATE_MAX_LOSS = 2000,
    GATE_MESSAGE = 108,       /* bytes of the longest message */
    GATE_STACK = 524288       /* bytes of stack that a call may use, what it returns not counted */
};

enum { GATE_DOMESTIC = 0, GATE_FRANCE = 1, GATE_ANDORRA = 2, GATE_PORTUGAL = 3, GATE_MOROCCO = 4 };

/* A struct with padding does not compile, from here to the end of the session. */
#pragma GCC diagnostic push
#pragma GCC diagnostic error "-Wpadded"

/* ------------------------------------------------------------------------------------------------ responses */

/* GateResponse.kind */
enum {
    GATE_ACCEPTED = 0, /* a call was done; a verdict is accepted */
    GATE_REFUSED = 1,  /* row: the refusal; hour: its hour, 0 where the table gives none. Nothing was changed */
    GATE_NUMBERED = 2, /* a lodgement was accepted; value: its lodging number, 1 to 65,535 */
    GATE_STEPS = 3,    /* the day was cleared; count: the withdrawal steps, summed over the hours */
    GATE_HIDDEN = 4,   /* a verdict: hidden by a normal lodgement */
    GATE_LIMIT = 5,    /* a verdict: refused at closing; row: the limit, 10 to 12 or 15; hour: the lowest in which it is passed */
    GATE_FIGURE = 6,   /* value: the figure asked for */
    GATE_ABSENT = 7    /* a maximum asked for: none, since the direction has no capacity */
};

/* The refusal table, "When the gate says no". The first row that applies is given, and for 10, 11, 12 and 15 the lowest hour in which
 * that limit is passed; otherwise the hour is 0. Rows stand in the table as here: 15 after 12. */
enum {
    GATE_REFUSED_DATE = 1,       /* not a date in the range, 2002-01-01 to 2099-12-31 */
    GATE_REFUSED_GATE = 2,       /* a change after closing; clearing or a verdict before closing; a figure before clearing;
                                    closing or clearing twice */
    GATE_REFUSED_FORM = 3,       /* wrong length, form, kind or filling */
    GATE_REFUSED_HOUR = 4,       /* empty map, hour outside 1 to H, clock name the day lacks, or a notice not of H hours */
    GATE_REFUSED_RANGE = 5,      /* a value outside its range, a legacy mark on a domestic unit, or a mark "with
                                    rights" on one that is not at France's border */
    GATE_REFUSED_UNIT = 6,       /* unregistered, domestic for an execution, or rights of an agent with no French unit of the side */
    GATE_REFUSED_TAKEN = 7,      /* unit number registered */
    GATE_REFUSED_SECOND = 8,     /* agent has that border (1 to 4) and side; units with rights are counted apart */
    GATE_REFUSED_FULL = 9,       /* 64 units; 128 lodgements and none of this key; 65,535 accepted */
    GATE_REFUSED_MAXIMUM = 10,   /* limit 10 passed: the unit's maximum */
    GATE_REFUSED_AVAILABLE = 11, /* limit 11 passed: its available energy */
    GATE_REFUSED_BORDER = 12,    /* limit 12 passed: the sum of both capacities of its border, where both are published; for a purchase
                                    unit times (10,000 + loss) / 10,000, rounded down; less the agent's rights, never below 0, for
                                    a French unit without them */
    GATE_REFUSED_RIGHTS = 15,    /* limit 15 of a unit with rights passed: its agent's rights on its side, 0 without a notice. Of registering
                                    (hour 0): the agent has no French unit of that side without them */
    GATE_REFUSED_ABSENT = 13,    /* no such key, or lodging number (0 too) not standing at closing */
    GATE_REFUSED_SHORT = 14      /* writer's buffer too small */
};

/* What every call and query answers. The fields that a kind does not name are 0. */
typedef struct GateResponse {
    uint32_t kind;
    uint32_t row;
    uint32_t hour;
    uint32_t reserved;
    int64_t value;
    uint64_t count;
} GateResponse;

/* ------------------------------------------------------------------------------------------------ what is passed */

typedef struct GateDate {
    uint32_t year;
    uint32_t month; /* 1 to 12 */
    uint32_t day;   /* 1 to 31 */
} GateDate;

/* A clock name: the starting local hour, and whether it is marked "second" (hour 4 of a 25-hour day alone). */
typedef struct GateClock {
    uint32_t name;
    bool second;
    uint8_t reserved;
    uint16_t reserved2;
} GateClock;

typedef struct GateUnit {
    uint32_t number;  /* 1 to 65,535 */
    uint32_t agent;   /* 1 to 65,535 */
    uint32_t border;  /* 0 domestic, 1 France, 2 Andorra, 3 Portugal, 4 Morocco */
    uint32_t maximum; /* energy */
    bool purchase;    /* false: a sale */
    bool legacy;      /* contracts older than Law 54/97; borders 1 to 4 only */
    bool rights;      /* with capacity rights; border 1 only, beside the agent's unit of that side without them */
    uint8_t reserved;
} GateUnit;

/* An unavailability notice: `count` available energies of a unit, hour 1 first. A count that is not the day's is refused (4). */
typedef struct GateUnavailability {
    size_t count;
    uint32_t unit;
    uint32_t energies[GATE_HOURS];
} GateUnavailability;

/* A rights notice: `count` energies of an agent's French units of a side, hour 1 first. It replaces the earlier one of the two. */
typedef struct GateRights {
    uint32_t agent;
    bool purchase; /* false: sales */
    uint8_t reserved;
    uint16_t reserved2;
    size_t count;
    uint32_t energies[GATE_HOURS];
    uint32_t reserved3;
} GateRights;

/* The loss of a border's exports, which is 0 until it is set. It replaces the border's earlier one. */
typedef struct GateLoss {
    uint32_t border; /* 1 to 4 */
    uint32_t loss;   /* hundredths of a percent, 0 to 2,000 */
} GateLoss;

/* A direction of a capacity notice: absent (then count and energies are not looked at), which means no maximum, or `count` energies,
 * hour 1 first, of which 0 is a maximum too. Before the first notice every direction is absent. */
typedef struct GatePublished {
    size_t count;
    bool published;
    uint8_t reserved;
    uint16_t reserved2;
    uint32_t energies[GATE_HOURS];
} GatePublished;

/* A capacity notice: export and import of border 1, of 2, of 3, of 4 (gate_direction). It replaces the notice before it whole. */
typedef struct GateCapacities {
    GatePublished directions[GATE_DIRECTIONS];
} GateCapacities;

/* The index of a border's direction, border 1 to 4, in a capacity notice and in an hour's figures. */
static inline size_t gate_direction(uint32_t border, bool is_export) {
    return (size_t)(border - 1) * 2 + (is_export ? 0 : 1);
}

/* What names a lodgement. A lodgement replaces the one with its key. */
typedef struct GateKey {
    bool execution;    /* false: an offer */
    bool is_default;   /* the default mark */
    uint16_t reserved;
    uint32_t unit;
    uint32_t contract; /* 0 for an offer, 1 to 65,535 for an execution */
} GateKey;

/* What a message says. */
typedef struct GateFields {
    bool execution;
    bool is_default;
    uint16_t reserved;
    uint32_t unit;
    uint32_t contract;
    uint32_t map;                  /* the hours that it names: see gate_hour_bit */
    uint32_t energies[GATE_HOURS]; /* hour 1 first: 1 to 99,999 in a named hour, 0 in another */
    uint32_t prices[GATE_HOURS];   /* hour 1 first: 0 to 18,030 in a named hour of an offer, 0 in another and in an execution */
} GateFields;

/* The bit of an hour, 1 to 25, in the hour map: hour 1 is bit 24, hour 25 bit 0. */
static inline uint32_t gate_hour_bit(uint32_t hour) {
    return (uint32_t)1 << (25 - hour);
}

/* ------------------------------------------------------------------------------------------------ what is given back */

/* A message read: row 0 and its fields, or the table's row and fields that are all 0. */
typedef struct GateReading {
    uint32_t row;
    GateFields fields;
} GateReading;

/* A message written: row 0 and the count of its bytes, or the table's row and 0. */
typedef struct GateWritten {
    uint32_t row;
    uint32_t reserved;
    size_t count;
} GateWritten;

/* An hour's clock name: row 0, the name and its mark; or the table's row, 0 and false. */
typedef struct GateClockName {
    uint32_t row;
    uint32_t name;
    bool second;
    uint8_t reserved;
    uint16_t reserved2;
} GateClockName;

/* ------------------------------------------------------------------------------------------------ the session */

/* The parts of a session may be read; it is changed by the calls alone. What stands behind the units, the lodgements and the
 * day's hours is 0. */

/* A notice that the session keeps. */
typedef struct GateNotice {
    bool given;
    uint8_t reserved;
    uint16_t reserved2;
    uint32_t energies[GATE_HOURS];
} GateNotice;

typedef struct GateLodgement {
    GateKey key;
    uint32_t number;
} GateLodgement;

/* A lodgement's energies and prices by hour. */
typedef struct GateEnergies {
    uint32_t energies[GATE_HOURS];
    uint32_t prices[GATE_HOURS];
} GateEnergies;

/* A verdict: accepted, refused by a limit in an hour, or neither, which is hidden. */
typedef struct GateVerdict {
    bool accepted;
    uint8_t reserved;
    uint16_t reserved2;
    uint32_t limit;
    uint32_t hour;
} GateVerdict;

/* An hour's figures, after clearing. Those at the borders stand by direction (gate_direction) and are counted at the border; energies of
 * units stand by the unit's index. */
typedef struct GateHourFigures {
    uint32_t price;
    uint32_t market[GATE_DIRECTIONS];
    uint32_t bilateral[GATE_DIRECTIONS];
    uint32_t maxima[GATE_DIRECTIONS]; /* market maxima, 0 also where the direction has none (gate_market_maximum tells) */
    uint32_t matched[GATE_UNITS];
    uint32_t executed[GATE_UNITS];
} GateHourFigures;

typedef struct GateSession {
    GateDate date;
    uint32_t hours;                            /* 23, 24 or 25 */
    size_t enrolled;                           /* units */
    GateUnit units[GATE_UNITS];                /* in the order of registering */
    GateNotice notices[GATE_UNITS];            /* unavailability, at the units' indices */
    GateNotice capacities[GATE_DIRECTIONS];    /* by gate_direction */
    size_t standing;                           /* lodgements */
    GateLodgement lodgements[GATE_LODGEMENTS]; /* in the order of their numbers */
    GateEnergies energies[GATE_LODGEMENTS];    /* at the lodgements' indices */
    uint32_t last;                             /* the last lodging number, 0 before the first */
    bool closed;
    bool cleared;
    uint16_t reserved;
    GateVerdict verdicts[GATE_LODGEMENTS];     /* by the lodgement's index, once closed */
    GateHourFigures figures[GATE_HOURS];           /* hour 1 first, once cleared */
    uint32_t reserved2;
    GateNotice rights[GATE_UNITS];             /* of its agent and side, at each French unit's index */
    uint32_t losses[5];                        /* by border, 0 domestic */
    uint32_t reserved3;
} GateSession;

/* A date's answer, and its fresh session. */
typedef struct GateOpening {
    GateResponse response;
    GateSession session;
} GateOpening;

#pragma GCC diagnostic pop

/* The layout that the archive is compiled with. */
GATE_ASSERT(sizeof(bool) == 1);
GATE_ASSERT(sizeof(GateResponse) == 32 && offsetof(GateResponse, value) == 16 && offsetof(GateResponse, count) == 24);
GATE_ASSERT(sizeof(GateDate) == 12);
GATE_ASSERT(sizeof(GateClock) == 8 && offsetof(GateClock, second) == 4);
GATE_ASSERT(sizeof(GateUnit) == 20 && offsetof(GateUnit, maximum) == 12 && offsetof(GateUnit, purchase) == 16 && offsetof(GateUnit, legacy) == 17 && offsetof(GateUnit, rights) == 18);
GATE_ASSERT(sizeof(GateUnavailability) == 112 && offsetof(GateUnavailability, unit) == 8 && offsetof(GateUnavailability, energies) == 12);
GATE_ASSERT(sizeof(GateRights) == 120 && offsetof(GateRights, purchase) == 4 && offsetof(GateRights, count) == 8 && offsetof(GateRights, energies) == 16);
GATE_ASSERT(sizeof(GateLoss) == 8 && offsetof(GateLoss, loss) == 4);
GATE_ASSERT(sizeof(GatePublished) == 112 && offsetof(GatePublished, published) == 8 && offsetof(GatePublished, energies) == 12);
GATE_ASSERT(sizeof(GateCapacities) == 896);
GATE_ASSERT(sizeof(GateKey) == 12 && offsetof(GateKey, unit) == 4);
GATE_ASSERT(sizeof(GateFields) == 216 && offsetof(GateFields, map) == 12 && offsetof(GateFields, prices) == 116);
GATE_ASSERT(sizeof(GateReading) == 220 && offsetof(GateReading, fields) == 4);
GATE_ASSERT(sizeof(GateWritten) == 16 && offsetof(GateWritten, count) == 8);
GATE_ASSERT(sizeof(GateClockName) == 12 && offsetof(GateClockName, second) == 8);
GATE_ASSERT(sizeof(GateNotice) == 104 && offsetof(GateNotice, energies) == 4);
GATE_ASSERT(sizeof(GateLodgement) == 16 && sizeof(GateEnergies) == 200);
GATE_ASSERT(sizeof(GateVerdict) == 12 && offsetof(GateVerdict, limit) == 4);
GATE_ASSERT(sizeof(GateHourFigures) == 612 && offsetof(GateHourFigures, executed) == 356);
GATE_ASSERT(offsetof(GateSession, hours) == 12 && offsetof(GateSession, enrolled) == 16 && offsetof(GateSession, units) == 24);
GATE_ASSERT(offsetof(GateSession, notices) == 1304 && offsetof(GateSession, capacities) == 7960);
GATE_ASSERT(offsetof(GateSession, standing) == 8792 && offsetof(GateSession, lodgements) == 8800);
GATE_ASSERT(offsetof(GateSession, energies) == 10848 && offsetof(GateSession, last) == 36448);
GATE_ASSERT(offsetof(GateSession, closed) == 36452 && offsetof(GateSession, cleared) == 36453);
GATE_ASSERT(offsetof(GateSession, verdicts) == 36456 && offsetof(GateSession, figures) == 37992);
GATE_ASSERT(offsetof(GateSession, rights) == 53296 && offsetof(GateSession, losses) == 59952);
GATE_ASSERT(sizeof(GateSession) == 59976);
GATE_ASSERT(sizeof(GateOpening) == 60008 && offsetof(GateOpening, session) == 32);

/* ------------------------------------------------------------------------------------------------ the archive */

/* The version and the bytes of a session that the archive was compiled with. */
uint32_t gate_version(void);
uint64_t gate_session_size(void);

/* Whether the archive is of this header: to be asked once, before the first call. */
static inline bool gate_matches(void) {
    return gate_version() == GATE_VERSION && gate_session_size() == sizeof(GateSession);
}

/* ------------------------------------------------------------------------------------------------ dates */

/* The fresh session of a date: accepted. Refused 1: beside it stands the fresh session of 2002-01-01. */
GateOpening gate_open(GateDate date);

/* The number of hours of a date, a figure: 23 on the last Sunday of March, 25 on the last Sunday of October, else 24. Refused 1. */
GateResponse gate_hours(GateDate date);

/* The clock name and mark of an hour of a date. Hours 3 and 4 of a 25-hour day are both named 2, the second marked. Row 1, 4. */
GateClockName gate_clock(GateDate date, uint32_t hour);

/* The hour of a clock name and mark of a date, a figure. Refused 1, 4. */
GateResponse gate_hour(GateDate date, GateClock clock);

/* ------------------------------------------------------------------------------------------------ messages */

/* Reads a lodging message of `length` bytes: row 3, 4 or 5, or its fields. It knows no day: 4 means an empty map. */
GateReading gate_read(const uint8_t *message, size_t length);

/* Writes the message of some fields into the first bytes of a buffer of `length` bytes, and touches none beyond them. Row 4 (an empty
 * map, or one beyond 25 bits), 5 or 14; then no byte is touched. GATE_MESSAGE bytes hold every message. */
GateWritten gate_write(GateFields fields, uint8_t *buffer, size_t length);

/* ------------------------------------------------------------------------------------------------ calls */

/* Each changes the session in place, or is refused and leaves it as it was. */

/* Registers a unit: accepted. Refused 2, 5, 7, 8, 9, 15. */
GateResponse gate_register(GateSession *session, GateUnit unit);

/* Takes an unavailability notice, which replaces the unit's earlier one: accepted. Refused 2, 4, 5, 6. */
GateResponse gate_unavailability(GateSession *session, GateUnavailability notice);

/* Takes a rights notice, which replaces the earlier one of the agent and side: accepted. Refused 2, 4, 5, 6. */
GateResponse gate_rights(GateSession *session, GateRights notice);

/* Sets a border's loss, which replaces its earlier one: accepted. Refused 2, 5. */
GateResponse gate_loss(GateSession *session, GateLoss loss);

/* Takes a capacity notice, which replaces the one before it: accepted. Refused 2, 4, 5. */
GateResponse gate_capacity(GateSession *session, GateCapacities notice);

/* Lodges a message of `length` bytes: numbered, with the next lodging number. Refused 2, 3, 4, 5, 6, 9, 10, 11, 12, 15; 10, 11, 12 and 15
 * with the hour. */
GateResponse gate_lodge(GateSession *session, const uint8_t *message, size_t length);

/* Annuls the lodgement of a key: accepted. Refused 2, 5, 6, 13. */
GateResponse gate_annul(GateSession *session, GateKey key);

/* Closes the gate and gives each standing lodgement its verdict: accepted. Refused 2. */
GateResponse gate_close(GateSession *session);

/* Clears the day: steps, the withdrawal steps of all hours. Refused 2. */
GateResponse gate_clear(GateSession *session);

/* ------------------------------------------------------------------------------------------------ queries */

/* A lodging number's verdict: accepted, hidden, or limit with its row and hour. Refused 2, 13. */
GateResponse gate_verdict(const GateSession *session, uint32_t number);

/* A unit's matched energy in an hour, a figure. Refused 2, 4, 5, 6. */
GateResponse gate_matched(const GateSession *session, uint32_t unit, uint32_t hour);

/* A unit's executed energy in an hour, after cuts, a figure. Refused 2, 4, 5, 6. */
GateResponse gate_executed(const GateSession *session, uint32_t unit, uint32_t hour);

/* The final market balance of a border 1 to 4 in an hour, a figure, counted at the border. Refused 2, 4, 5. */
GateResponse gate_market_balance(const GateSession *session, uint32_t border, uint32_t hour);

/* The final balance of its executions, a figure. Refused 2, 4, 5. */
GateResponse gate_bilateral_balance(const GateSession *session, uint32_t border, uint32_t hour);

/* The market maximum of a border's direction in an hour: a figure, or absent. Refused 2, 4, 5. */
GateResponse gate_market_maximum(const GateSession *session, uint32_t border, bool is_export, uint32_t hour);

/* The bilateral maximum of a border's direction in an hour, which may be below zero: a figure, or absent. Refused 2, 4, 5. */
GateResponse gate_bilateral_maximum(const GateSession *session, uint32_t border, bool is_export, uint32_t hour);

/* The price of an hour, a figure; 0 also where nothing is matched. Refused 2, 4. */
GateResponse gate_price(const GateSession *session, uint32_t hour);

#ifdef __cplusplus
}
#endif

#endif
