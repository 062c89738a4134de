/* How many zones a listing looks at, without links and with them. */
#ifndef LOOKING_H
#define LOOKING_H

#include "shapes.h"

/* Prints three numbers: the zones that the plain call decides about, those that the call with links
   decides about, and those that it reads in addition to confirm how far it may jump. They are for
   the listing of a shape from a ticket on, with room for all pairs. In descendant order the zones
   are those that stand before the last sample. In ancestor order the plain call decides about each
   zone from the first that wasn't served on, and the call with links stops where no sample is left.
   The zones inside one that is passed by links aren't looked at. */
void print_looked(const struct shape *shape, const uint32_t *links, const belfry_ticket *ticket);

#endif
