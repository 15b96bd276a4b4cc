/* Leads: serves the clients in batches, and answers a batch once Redis has acknowledged its piece of the journal. */
#ifndef FOLLOW_LEADER_H
#define FOLLOW_LEADER_H

#include "lease.h"
#include "service.h"

/* Leads in this epoch until the process is to stop. `listener` is bound to the address of this name. If another process leads, this
 * one ends. A short journal takes the place of all pieces once these have at least `least` entries, and four times as many as it
 * has. */
void lead(const struct lease *lease, uint64_t epoch, struct service *service, int listener, const char *address, uint64_t least);

#endif
