// There are no files: nothing can be opened by name, and the three streams can't be moved in.
#define _GNU_SOURCE
#include "memory_stream.h"

#include <dirent.h>
#include <errno.h>
#include <fcntl.h>
#include <sys/stat.h>
#include <unistd.h>

static int failed(int error) {
  errno = error;
  return -1;
}
static void *none(int error) {
  errno = error;
  return NULL;
}

// A name is read, as elsewhere.
static int no_file(const char *name) {
  cc_check_text(name);
  return failed(ENOENT);
}
static void *nothing(const char *name) {
  cc_check_text(name);
  return none(ENOENT);
}

// ---- streams

weak FILE *fopen(const char *restrict name, const char *restrict mode) { return nothing(name); }
also(fopen64, fopen);
// Without a name the mode alone changes, which says nothing here.
weak FILE *freopen(const char *restrict name, const char *restrict mode, FILE *restrict stream) { return name ? nothing(name) : stream; }
weak FILE *tmpfile(void) { return none(ENOENT); }
weak FILE *popen(const char *command, const char *mode) { return nothing(command); }
weak int pclose(FILE *stream) { return failed(ECHILD); }
weak FILE *fdopen(int descriptor, const char *mode) {
  return descriptor == 0 ? stdin : descriptor == 1 ? stdout : descriptor == 2 ? stderr : none(EBADF);
}

weak int fclose(FILE *stream) {
  if (cc_is_memory(stream))
    cc_close_memory(stream);
  return 0;
}
weak int fileno(FILE *stream) { return stream->_fileno < 0 ? failed(EBADF) : stream->_fileno; }
also(fileno_unlocked, fileno);

weak int fseek(FILE *stream, long offset, int from) { return failed(ESPIPE); }
weak int fseeko(FILE *stream, off_t offset, int from) { return failed(ESPIPE); }
weak long ftell(FILE *stream) { return failed(ESPIPE); }
weak off_t ftello(FILE *stream) { return failed(ESPIPE); }
weak void rewind(FILE *stream) { stream->_flags &= ~(_IO_EOF_SEEN | _IO_ERR_SEEN); }
weak void flockfile(FILE *stream) {}
weak void funlockfile(FILE *stream) {}

// ---- names

weak int remove(const char *name) { return no_file(name); }
weak int unlink(const char *name) { return no_file(name); }
weak int rmdir(const char *name) { return no_file(name); }
weak int mkdir(const char *name, mode_t mode) { return no_file(name); }
weak int chdir(const char *name) { return no_file(name); }
weak int rename(const char *from, const char *to) { return no_file(from); }
weak int access(const char *name, int mode) { return no_file(name); }
weak int mkstemp(char *pattern) { return no_file(pattern); }
weak char *getcwd(char *to, size_t room) { return none(ENOENT); }
weak DIR *opendir(const char *name) { return nothing(name); }
weak struct dirent *readdir(DIR *folder) { return none(EBADF); }
weak int closedir(DIR *folder) { return failed(EBADF); }
weak char *tmpnam(char *to) { return none(ENOENT); }
weak char *realpath(const char *restrict name, char *restrict to) { return nothing(name); }
weak int chmod(const char *name, mode_t mode) { return no_file(name); }
weak mode_t umask(mode_t mask) { return 022; }
weak int stat(const char *restrict name, struct stat *restrict to) { return no_file(name); }
weak int lstat(const char *restrict name, struct stat *restrict to) { return no_file(name); }

// ---- descriptors

weak int open(const char *name, int flags, ...) { return no_file(name); }
weak int creat(const char *name, mode_t mode) { return no_file(name); }
weak int close(int descriptor) { return descriptor >= 0 && descriptor <= 2 ? 0 : failed(EBADF); }
weak off_t lseek(int descriptor, off_t offset, int from) { return failed(descriptor >= 0 && descriptor <= 2 ? ESPIPE : EBADF); }
weak int dup(int descriptor) { return failed(EMFILE); }
weak int dup2(int descriptor, int other) { return descriptor == other && descriptor >= 0 && descriptor <= 2 ? other : failed(EBADF); }
weak int fcntl(int descriptor, int command, ...) { return failed(EINVAL); }
weak int ioctl(int descriptor, unsigned long request, ...) { return failed(ENOTTY); }
weak int fsync(int descriptor) { return failed(EINVAL); }
weak int ftruncate(int descriptor, off_t length) { return failed(EINVAL); }
weak int isatty(int descriptor) {
  errno = descriptor >= 0 && descriptor <= 2 ? ENOTTY : EBADF;
  return 0;
}
// A descriptor of the three is a pipe.
weak int fstat(int descriptor, struct stat *to) {
  if (descriptor < 0 || descriptor > 2)
    return failed(EBADF);
  *to = (struct stat){.st_mode = S_IFIFO | S_IRUSR | S_IWUSR, .st_nlink = 1, .st_blksize = 4096};
  return 0;
}
