/* Makes a case that differs as small as it gets by leaving bytes out and lowering them. */
#ifndef SHRINK_H
#define SHRINK_H

#include "examine.h"

/* Tables and buffer count first, then words. */
size_t case_size(const struct fuzz_case *of);

/* Leaves in `report` what is said of the case then. */
void shrink(struct fuzz_case *smallest, struct report *report);

#endif
