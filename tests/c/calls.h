/*
 * The calls as C's tests make them, each in one place: where a call gets a parameter more, as K9's time, it is given here.
 */
#ifndef CALLS_H
#define CALLS_H

#include "gate.h"

static inline GateResponse call_register(GateSession *s, GateUnit unit) { return gate_register(s, unit); }
static inline GateResponse call_unavailability(GateSession *s, GateUnavailability notice) { return gate_unavailability(s, notice); }
static inline GateResponse call_rights(GateSession *s, GateRights notice) { return gate_rights(s, notice); }
static inline GateResponse call_capacity(GateSession *s, GateCapacities notice) { return gate_capacity(s, notice); }
static inline GateResponse call_loss(GateSession *s, GateLoss loss) { return gate_loss(s, loss); }
static inline GateResponse call_lodge(GateSession *s, const uint8_t *message, size_t length) { return gate_lodge(s, message, length); }
static inline GateResponse call_annul(GateSession *s, GateKey key) { return gate_annul(s, key); }
static inline GateResponse call_close(GateSession *s) { return gate_close(s); }
static inline GateResponse call_clear(GateSession *s) { return gate_clear(s); }

#endif
