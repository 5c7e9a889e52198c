/* The slot for which a row is refused with 13. */
#ifndef UNFIT_H
#define UNFIT_H

#include "pistrovelle.h"
#include "text.h"

/* A row's slots count from 1. */
struct unfit {
    size_t slot;     /* the unfit one */
    size_t declared; /* how many the row has; the fault is a filled column past them where `slot` is above */
    uint32_t code;   /* that of the slot; 0 where it is above */
};

/* Finds it for a row of a text whose header is fit. The tables are those that were lent for the text, and are written to. */
struct unfit find_unfit(const struct text *text, const pistrovelle_tables *tables, struct line row);

/* The first column of a slot. */
size_t slot_column(size_t slot);

#endif
