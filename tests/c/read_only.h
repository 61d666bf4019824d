/* Memory that can't be written for a while: a store into it ends the program, which says so. The pages are the memory's own. */
#ifndef READ_ONLY_H
#define READ_ONLY_H

#include <stddef.h>

/* Both say whether it could be done. */
int read_only(void *at, size_t length);
int writable(void *at, size_t length);

#endif
