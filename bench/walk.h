// Two walks over all settings in rising order, with the same answer.
#ifndef WALK_H
#define WALK_H

#include "answer.h"
#include "program.h"

// One setting at a time, each settled by rounds over every clause.
void walk_scan(const Case *c, const Program *p, Answer *answer);

// Sixty-four settings at a time, each a bit of every word; a round visits the heads that the last one can have changed.
void walk_lanes(const Case *c, const Program *p, Answer *answer);

#endif
