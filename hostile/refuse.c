// Stands between a program and the C library: counts the growths and the calls to the system, and refuses those that a page of
// memory names, which refusing.py shares with the program. refusing.py builds it with the toolchain's clang, without headers, and has
// it loaded before the C library. It is no part of the program.

typedef unsigned long size_t;
typedef long ssize_t;

extern void *dlsym(void *handle, const char *name);
extern char *getenv(const char *name);
extern void *mmap(void *address, size_t length, int protection, int flags, int file, long offset);
extern int *__errno_location(void);
extern void _exit(int status);

#define NEXT ((void *)-1L)
#define READ_AND_WRITE 3
#define SHARED 1
#define INPUT_OUTPUT 5
#define OUT_OF_MEMORY 12
#define STOPPED 86
#define MOST_FILES 256
#define MOST_NEW_FILES 4096
#define MAKES_FILE 0100
#define ONLY_READS 0
#define WALL_CLOCK 0

// The numbers of the page, in the order of refusing.py.
struct page {
  long between_marks; // whether growths count only between the first and the second write to standard output
  long growth;        // which growth is refused, counted from 1; 0: none
  long call;          // which call to the system fails, counted from 1; 0: none
  long from_there;    // whether the later ones fail too
  long fault;         // its error number; 0: a write takes no byte; -1: the process ends there
  long narrow;        // whether a read or a write moves one byte at most
  long hurry;         // by how many milliseconds each look at a clock moves it forward
  long growths;       // counted here
  long calls;
  long refused;
  long marks;
  long unlinks;       // of those refused, how many would have removed a file or a folder
  long tried;         // the number of the last call before anything was written to a new file that removed one: outputs are tried until then
  long stored;        // how often a file or a folder was stored
  long unstored;      // how many new files were renamed before they were stored
  long unstored_names; // how many files were renamed since a folder was stored
  char file[64];      // the name of the file of the last one refused, without its folders, -0, -1 or -2 for a standard stream; empty if it
                      // isn't known
};

static struct page none;
static struct page *page = &none;

__attribute__((constructor)) static void find_page(void) {
  const char *digit = getenv("REFUSE_PAGE");
  if (!digit) return;
  int file = 0;
  for (; *digit; digit++) file = 10 * file + (*digit - '0');
  void *found = mmap(0, sizeof none, READ_AND_WRITE, SHARED, file, 0);
  if (found != NEXT) page = found;
}

static int refuses_growth(void) {
  if (page->between_marks && page->marks != 1) return 0;
  page->growths++;
  if (page->growths != page->growth) return 0;
  page->refused++;
  *__errno_location() = OUT_OF_MEMORY;
  return 1;
}

static int fails(void) {
  page->calls++;
  if (!page->call || page->calls < page->call || (page->calls > page->call && !page->from_there)) return 0;
  page->refused++;
  if (page->fault < 0) _exit(STOPPED);
  *__errno_location() = page->fault ? (int)page->fault : INPUT_OUTPUT;
  return 1;
}

// The names of open files, without their folders.
static char names[MOST_FILES][sizeof none.file] = {"-0", "-1", "-2"};

// The files that were made: their names, and whether all that was written to them is stored.
static struct new_file {
  char name[sizeof none.file];
  int is_stored;
} new_files[MOST_NEW_FILES];
static int new_count;
// The new file that an open file is, or none, and whether a file is only read, as a folder is.
static struct new_file *new_of[MOST_FILES];
static int only_read[MOST_FILES];
static int has_written;

static void copy_name(char *to, const char *path) {
  const char *name = path;
  for (; *path; path++)
    if (*path == '/') name = path + 1;
  size_t count = 0;
  for (; name[count] && count + 1 < sizeof none.file; count++) to[count] = name[count];
  to[count] = 0;
}

static int is_same(const char *one, const char *other) {
  for (; *one && *one == *other; one++) other++;
  return *one == *other;
}

static struct new_file *find_new(const char *path) {
  char name[sizeof none.file];
  copy_name(name, path);
  for (int place = 0; place < new_count; place++)
    if (is_same(new_files[place].name, name)) return &new_files[place];
  return 0;
}

static struct new_file *make_new(const char *path) {
  struct new_file *found = find_new(path);
  if (!found && new_count < MOST_NEW_FILES) found = &new_files[new_count++];
  if (found) {
    copy_name(found->name, path);
    found->is_stored = 0;
  }
  return found;
}

static int opened(int file, const char *path, int how) {
  if (file >= 0 && file < MOST_FILES) {
    copy_name(names[file], path);
    new_of[file] = how & MAKES_FILE ? make_new(path) : 0;
    only_read[file] = (how & 3) == ONLY_READS;
  }
  return file;
}

static void note_written(int file) {
  if (file < 0 || file >= MOST_FILES || !new_of[file]) return;
  new_of[file]->is_stored = 0;
  has_written = 1;
}

static int note_stored(int file, int status) {
  if (status || file < 0 || file >= MOST_FILES) return status;
  page->stored++;
  if (new_of[file]) new_of[file]->is_stored = 1;
  if (only_read[file]) page->unstored_names = 0;
  return status;
}

static int note_renamed(const char *from, int status) {
  if (status) return status;
  struct new_file *found = find_new(from);
  if (found && !found->is_stored) page->unstored++;
  page->unstored_names++;
  return status;
}

static int note_removed(const char *path, int status) {
  if (!status && !has_written && find_new(path)) page->tried = page->calls;
  return status;
}

static int fails_on(const char *path) {
  if (!fails()) return 0;
  copy_name(page->file, path);
  return 1;
}

static int fails_in(int file) { return fails_on(file >= 0 && file < MOST_FILES ? names[file] : ""); }

static int fails_to_remove(const char *path) {
  if (!fails_on(path)) return 0;
  page->unlinks++;
  return 1;
}

static size_t part(size_t count) { return page->narrow && count > 1 ? 1 : count; }

#define REAL(type, name) \
  static type real; \
  if (!real) real = (type)dlsym(NEXT, name)

typedef void *growing(size_t);
typedef void *regrowing(void *, size_t);
typedef ssize_t reading(int, void *, size_t);
typedef ssize_t writing(int, const void *, size_t);
typedef int opening(const char *, int, unsigned);
typedef int opening_at(int, const char *, int, unsigned);
typedef int renaming(const char *, const char *);
typedef int renaming_at(int, const char *, int, const char *);
typedef int removing(const char *);
typedef int removing_at(int, const char *, int);
typedef int syncing(int);
typedef int linking(const char *, const char *);
typedef ssize_t reading_link(const char *, char *, size_t);
typedef int setting_mode(int, unsigned);
typedef int looking(int, const char *, int, unsigned, void *);
typedef long seeking(int, long, int);
typedef int making_folder(const char *, unsigned);
typedef int making_folder_at(int, const char *, unsigned);
typedef int giving(const char *, unsigned, unsigned);
typedef char *finding_path(const char *, char *);
typedef int looking_at_clock(int, long *);

void *malloc(size_t count) {
  REAL(growing *, "malloc");
  return refuses_growth() ? 0 : real(count);
}

void *realloc(void *block, size_t count) {
  REAL(regrowing *, "realloc");
  return refuses_growth() ? 0 : real(block, count);
}

ssize_t read(int file, void *bytes, size_t count) {
  REAL(reading *, "read");
  if (fails_in(file)) return -1;
  return real(file, bytes, part(count));
}

static ssize_t counted_write(writing *real, int file, const void *bytes, size_t count) {
  if (file == 1) page->marks++;
  if (fails_in(file)) return page->fault ? -1 : 0;
  note_written(file);
  return real(file, bytes, part(count));
}

ssize_t write(int file, const void *bytes, size_t count) {
  REAL(writing *, "write");
  return counted_write(real, file, bytes, count);
}

ssize_t __write(int file, const void *bytes, size_t count) {
  REAL(writing *, "__write");
  return counted_write(real, file, bytes, count);
}

int open(const char *path, int how, unsigned mode) {
  REAL(opening *, "open");
  return fails_on(path) ? -1 : opened(real(path, how, mode), path, how);
}

int open64(const char *path, int how, unsigned mode) {
  REAL(opening *, "open64");
  return fails_on(path) ? -1 : opened(real(path, how, mode), path, how);
}

int openat(int folder, const char *path, int how, unsigned mode) {
  REAL(opening_at *, "openat");
  return fails_on(path) ? -1 : opened(real(folder, path, how, mode), path, how);
}

int rename(const char *from, const char *to) {
  REAL(renaming *, "rename");
  return fails_on(to) ? -1 : note_renamed(from, real(from, to));
}

int renameat(int from_folder, const char *from, int to_folder, const char *to) {
  REAL(renaming_at *, "renameat");
  return fails_on(to) ? -1 : note_renamed(from, real(from_folder, from, to_folder, to));
}

int unlink(const char *path) {
  REAL(removing *, "unlink");
  return fails_to_remove(path) ? -1 : note_removed(path, real(path));
}

int unlinkat(int folder, const char *path, int how) {
  REAL(removing_at *, "unlinkat");
  return fails_to_remove(path) ? -1 : note_removed(path, real(folder, path, how));
}

int mkdir(const char *path, unsigned mode) {
  REAL(making_folder *, "mkdir");
  return fails_on(path) ? -1 : real(path, mode);
}

int mkdirat(int folder, const char *path, unsigned mode) {
  REAL(making_folder_at *, "mkdirat");
  return fails_on(path) ? -1 : real(folder, path, mode);
}

int rmdir(const char *path) {
  REAL(removing *, "rmdir");
  return fails_to_remove(path) ? -1 : real(path);
}

int chown(const char *path, unsigned owner, unsigned group) {
  REAL(giving *, "chown");
  return fails_on(path) ? -1 : real(path, owner, group);
}

char *realpath(const char *path, char *found) {
  REAL(finding_path *, "realpath");
  return fails_on(path) ? 0 : real(path, found);
}

int fsync(int file) {
  REAL(syncing *, "fsync");
  return fails_in(file) ? -1 : note_stored(file, real(file));
}

int fdatasync(int file) {
  REAL(syncing *, "fdatasync");
  return fails_in(file) ? -1 : note_stored(file, real(file));
}

int close(int file) {
  REAL(syncing *, "close");
  return fails_in(file) ? -1 : real(file);
}

int link(const char *from, const char *to) {
  REAL(linking *, "link");
  return fails_on(to) ? -1 : real(from, to);
}

ssize_t readlink(const char *path, char *bytes, size_t count) {
  REAL(reading_link *, "readlink");
  return fails_on(path) ? -1 : real(path, bytes, count);
}

int fchmod(int file, unsigned mode) {
  REAL(setting_mode *, "fchmod");
  return fails_in(file) ? -1 : real(file, mode);
}

int statx(int folder, const char *path, int how, unsigned mask, void *found) {
  REAL(looking *, "statx");
  int has_failed = *path ? fails_on(path) : fails_in(folder);
  return has_failed ? -1 : real(folder, path, how, mask, found);
}

long lseek(int file, long offset, int from) {
  REAL(seeking *, "lseek");
  return fails_in(file) ? -1 : real(file, offset, from);
}

// Never fails; the clock of the day stays right.
int clock_gettime(int clock, long *time) {
  REAL(looking_at_clock *, "clock_gettime");
  static long looks;
  int status = real(clock, time);
  if (status || clock == WALL_CLOCK || !page->hurry) return status;
  long more = ++looks * page->hurry;
  time[0] += more / 1000;
  time[1] += more % 1000 * 1000000;
  if (time[1] >= 1000000000) {
    time[0]++;
    time[1] -= 1000000000;
  }
  return status;
}
