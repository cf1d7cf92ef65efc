/* The sheet of a call, right or damaged, and what is known of it apart from the library. */
#ifndef SHEETS_H
#define SHEETS_H

#include "complexes.h"
#include "memory.h"

/* A basis of up to so many candidates is listed apart from the library too. */
enum { SIDE_CANDIDATES = 30000, SIDE_ENTRIES = SIDE_CANDIDATES * MOST_EDGES };

struct sheet {
    uint8_t bytes[LONGEST];
    size_t len;
    bool used;        /* the call has a sheet */
    unsigned refusal; /* 0, 1 to 9, or 10 where the call needs a basis */
    struct complex c;
    struct tree t;
    uint64_t n;  /* states or masks; some small number where the sheet is refused */
    bool listed; /* all states stand in `side` */
};

extern struct sheet s;
extern int32_t side[SIDE_ENTRIES];

/* A sheet, with about so many candidates in U(1) or Z2, but for a few that have all that are allowed. */
void make_sheet(bool u1, uint64_t mostly);
/* The same for a call that needs the basis. */
void make_basis(bool u1, uint64_t mostly);
/* The sheet whose list of states is the longest. */
void make_longest_basis(void);
/* The states of U(1), listed if they are not too many, else counted by the library. */
void find_states(void);

struct list *give_sheet(void);
uint64_t state_entries(void);
struct list *lend_states(void);
struct list *lend_masks(void);

#endif
