// Streams over memory, of `fmemopen` and `open_memstream`: those whose descriptor is -1.
#ifndef CC_MEMORY_STREAM_H
#define CC_MEMORY_STREAM_H

#include "library.h"

static inline int cc_is_memory(const FILE *stream) { return stream->_fileno < 0; }

size_t cc_put_memory(const void *bytes, size_t size, FILE *stream);
// Tells the program where the text stands and how long it is.
void cc_show_memory(FILE *stream);
void cc_close_memory(FILE *stream);

#endif
