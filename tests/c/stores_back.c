/*
 * A wrong gate, for tests/c/refused.c to find: its closing and clearing, refused, store what is there already, as those of e9f892d did (1,536
 * bytes of verdicts, 15,900 of figures). Linked in front of the archive by --wrap.
 */
#include "gate.h"

GateResponse __real_gate_close(GateSession *s);
GateResponse __real_gate_clear(GateSession *s);
GateResponse __wrap_gate_close(GateSession *s);
GateResponse __wrap_gate_clear(GateSession *s);

static void store_back(volatile void *part, size_t size) {
    volatile uint8_t *bytes = part;
    for (size_t i = 0; i < size; i++) bytes[i] = bytes[i];
}

GateResponse __wrap_gate_close(GateSession *s) {
    GateResponse r = __real_gate_close(s);
    if (r.kind == GATE_REFUSED) store_back(s->verdicts, sizeof s->verdicts);
    return r;
}

GateResponse __wrap_gate_clear(GateSession *s) {
    GateResponse r = __real_gate_clear(s);
    if (r.kind == GATE_REFUSED) store_back(s->figures, sizeof s->figures);
    return r;
}
