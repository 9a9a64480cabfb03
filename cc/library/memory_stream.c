// `fmemopen` and `open_memstream`.
#define _GNU_SOURCE
#include "memory_stream.h"

#include <errno.h>
#include <stdlib.h>
#include <string.h>

// What a stream writes to: the program's memory of a size, or memory that grows, told through two pointers.
struct memory {
  FILE stream; // first, so that its address is also the whole's
  char *bytes;
  size_t length, room;
  int is_fixed;
  char **told;
  size_t *told_length;
};

static struct memory *new_memory(void) {
  struct memory *memory = calloc(1, sizeof *memory);
  if (memory)
    memory->stream._fileno = -1;
  return memory;
}

// Bytes behind the text's are never made zeros but for one, as where no more was written.
static int grow(struct memory *memory, size_t size) {
  size_t needed = memory->length + size + 1;
  if (needed <= memory->room)
    return 1;
  char *bytes = realloc(memory->bytes, needed * 2);
  if (!bytes)
    return 0;
  memory->bytes = bytes;
  memory->room = needed * 2;
  return 1;
}

size_t cc_put_memory(const void *bytes, size_t size, FILE *stream) {
  struct memory *memory = (struct memory *)stream;
  size_t taken = size;
  if (memory->is_fixed)
    taken = size <= memory->room - memory->length ? size : memory->room - memory->length;
  else if (!grow(memory, size))
    taken = 0;
  memcpy(memory->bytes + memory->length, bytes, taken);
  memory->length += taken;
  if (!memory->is_fixed || memory->length < memory->room)
    memory->bytes[memory->length] = '\0';
  if (taken < size)
    errno = ENOSPC;
  return taken;
}

void cc_show_memory(FILE *stream) {
  struct memory *memory = (struct memory *)stream;
  if (memory->told) {
    *memory->told = memory->bytes;
    *memory->told_length = memory->length;
  }
}

void cc_close_memory(FILE *stream) {
  cc_show_memory(stream);
  struct memory *memory = (struct memory *)stream;
  if (memory->is_fixed)
    free(stream->_IO_read_base);
  free(memory);
}

weak FILE *open_memstream(char **text, size_t *length) {
  struct memory *memory = new_memory();
  if (!memory || !grow(memory, 0))
    return NULL;
  memory->bytes[0] = '\0';
  memory->told = text;
  memory->told_length = length;
  cc_show_memory(&memory->stream);
  return &memory->stream;
}

// What is read is a copy of the memory when it is opened, with room in front of it for `ungetc`. Modes "r", "w" and "a"; not both ways at
// once.
weak FILE *fmemopen(void *bytes, size_t size, const char *mode) {
  enum { BACK = 8 };
  struct memory *memory = new_memory();
  if (!memory)
    return NULL;
  memory->is_fixed = 1;
  memory->bytes = bytes;
  if (*mode == 'r') {
    char *copy = malloc(BACK + size);
    if (!copy)
      return NULL;
    memcpy(copy + BACK, bytes, size);
    memory->stream._IO_read_base = copy;
    memory->stream._IO_read_ptr = copy + BACK;
    memory->stream._IO_read_end = copy + BACK + size;
    return &memory->stream;
  }
  memory->room = size;
  if (*mode == 'a')
    while (memory->length < size && memory->bytes[memory->length])
      memory->length++;
  else if (size)
    memory->bytes[0] = '\0';
  return &memory->stream;
}
