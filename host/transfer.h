/* Moves bytes to and from a solver, with an eye on the clock. */
#ifndef TRANSFER_H
#define TRANSFER_H

#include "conversation.h"

/* How long something is waited for. */
struct patience {
    int64_t deadline; /* in milliseconds of the system's clock */
    bool is_over;     /* the pipes have been looked at once more behind the deadline */
};

struct patience patience_of(const struct conversation *talk);

/* Waits until a pipe is ready, and serves those that are. False after a fault, a deadline that has passed among them. */
bool transfer_turn(struct conversation *talk, struct patience *patience);

/* Takes what the solver has written already, without waiting. False after a fault. */
bool transfer_look(struct conversation *talk);

bool transfer_is_due(const struct conversation *talk);

#endif
