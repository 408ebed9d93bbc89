/*
 * A library to preload into a program. It sets what the system shows to the program, lists the program's calls of the
 * system, and lets single ones fail. `fixed_system` of tests/harness/trial.py makes it with the toolchain's compiler,
 * which has no headers of the C library.
 *
 *     LD_PRELOAD=./fixed_system.so CLOCK=1798761600 kadm lint --db database
 *
 * A setting is a variable of the environment, or else the first line of the file with its name in the folder STAGE. It
 * is read at each call, so files can change while the program runs. What has no setting is the system's own.
 *
 * CLOCK=SECONDS    the clock shows this many seconds since 1970
 * BOOT=NAME        the system's name for its boot
 * DRAWS=NUMBER     each random byte is this number
 * HELD=NUMBERms    another program has each lock for this many milliseconds; the program's pauses count, and take no
 *                  time
 * CALLS=FILE       each call of a function below is added to this file: its name, and its path; output, pauses and
 *                  other clocks are left out
 * AMONG=TEXT       only calls on files whose paths have this text are added and counted, each with its path
 * FAILS=WHICH      of these calls the one with this number fails, or the next one with this name; the setting is then
 *                  removed
 * THEN=WHICH       takes the place of FAILS once that was removed; both are files of the stage
 * ERROR=NUMBER     the error of a call that fails, in place of an input or output error
 * KILLS=WHICH      the process is killed in place of the call with this number, or of the next one with this name
 * UNSYNCED=1       nothing is forced to the disk
 *
 * An fsync of a folder has the name fsync_folder.
 */

enum { LONGEST = 4096, STDOUT = 1, STDERR = 2, CREATES = 0100, TIME_OF_DAY = 0 };
enum { INPUT_OUTPUT_ERROR = 5, WOULD_BLOCK = 11, KILL = 9, IS_A_FOLDER = 21, NO_FILE = -1 };

struct stream;
struct statx;
struct address;
struct moment {
	long seconds, nanoseconds;
};

extern char *fgets(char *, int, struct stream *), *getenv(const char *), *strstr(const char *, const char *);
extern int *__errno_location(void);
extern int dprintf(int, const char *, ...), fclose(struct stream *), fprintf(struct stream *, const char *, ...);
extern int memfd_create(const char *, unsigned), raise(int), strcmp(const char *, const char *);
extern int snprintf(char *, unsigned long, const char *, ...);
extern int rename(const char *, const char *), unlink(const char *), unsetenv(const char *);
extern long lseek(int, long, int), readlink(const char *, char *, unsigned long), strtol(const char *, char **, int);
extern struct stream *fopen(const char *, const char *);
extern unsigned long strcspn(const char *, const char *);
extern void *dlsym(void *, const char *), *memset(void *, int, unsigned long);

/* The function of the system with this name. */
#define NEXT(name) ((__typeof__(&name))dlsym((void *)-1, #name))

/* Writes the path of a setting's file. Returns whether there is a folder for it. */
static int has_place(const char *name, char path[LONGEST])
{
	const char *stage = getenv("STAGE");

	return stage && snprintf(path, LONGEST, "%s/%s", stage, name) < LONGEST;
}

/* Reads a setting, and returns whether it is there. */
static int is_set(const char *name, char text[LONGEST])
{
	const char *given = getenv(name);
	char path[LONGEST];
	struct stream *file;

	if (given)
		return snprintf(text, LONGEST, "%s", given) < LONGEST;
	file = has_place(name, path) ? fopen(path, "r") : 0;
	if (!file)
		return 0;
	text[0] = 0;
	fgets(text, LONGEST, file);
	fclose(file);
	text[strcspn(text, "\n")] = 0;
	return 1;
}

/* Returns the number that a setting begins with; -1 if it is not there. */
static long number(const char *name)
{
	char text[LONGEST];

	return is_set(name, text) ? strtol(text, 0, 10) : -1;
}

/* Removes the setting of the calls that fail, or puts the next one in its place. */
static void go_on(void)
{
	char path[LONGEST], next[LONGEST];

	if (getenv("FAILS"))
		unsetenv("FAILS");
	else if (has_place("FAILS", path) && has_place("THEN", next) && NEXT(rename)(next, path))
		NEXT(unlink)(path);
}

static void list(const char *call, const char *path)
{
	char name[LONGEST];
	struct stream *file = is_set("CALLS", name) ? fopen(name, "a") : 0;

	if (!file)
		return;
	fprintf(file, "%s%s%s\n", call, *path ? " " : "", path);
	fclose(file);
}

static int fail(int error)
{
	*__errno_location() = error;
	return -1;
}

/* Writes the path of a call's file: of the one at this path, or, if that is empty, of the open one. Returns whether the
 * call counts. */
static int counts(const char *path, int file, char found[LONGEST])
{
	char text[LONGEST], link[64];
	long length;

	snprintf(found, LONGEST, "%s", path);
	if (!is_set("AMONG", text))
		return 1;
	if (!*path && file != NO_FILE) {
		snprintf(link, sizeof link, "/proc/self/fd/%d", file);
		length = readlink(link, found, LONGEST - 1);
		found[length < 0 ? 0 : length] = 0;
	}
	return !!strstr(found, text);
}

/* Returns whether a setting names the call with this number and name. */
static int names(const char *setting, long number, const char *call)
{
	char which[LONGEST];

	return is_set(setting, which) && (strtol(which, 0, 10) == number || !strcmp(which, call));
}

/* Lists and counts a call. Returns whether it fails, with an error that is set. */
static int fails(const char *call, const char *path, int file)
{
	static long calls;
	char found[LONGEST];
	long error;

	if (!counts(path, file, found))
		return 0;
	list(call, found);
	calls++;
	if (names("KILLS", calls, call))
		raise(KILL);
	if (!names("FAILS", calls, call))
		return 0;
	go_on();
	error = number("ERROR");
	return fail(error < 0 ? INPUT_OUTPUT_ERROR : (int)error);
}

/* Returns a file that holds a line. */
static int file_of(const char *line)
{
	int file = memfd_create("line", 0);

	dprintf(file, "%s\n", line);
	lseek(file, 0, 0);
	return file;
}

/* Lets a call of this kind be listed, and fail. It is one on the file at a path, or, if that is empty, on an open
 * one. */
#define FALLIBLE(type, name, path, file, parameters, arguments)                \
	type name parameters                                                   \
	{                                                                      \
		return fails(#name, path, file) ? -1 : NEXT(name) arguments;   \
	}

FALLIBLE(int, statx, path, folder, (int folder, const char *path, int flags, unsigned mask, struct statx *found),
         (folder, path, flags, mask, found))
FALLIBLE(long, read, "", file, (int file, void *octets, unsigned long count), (file, octets, count))
FALLIBLE(int, fchmod, "", file, (int file, unsigned mode), (file, mode))
FALLIBLE(int, ftruncate, "", file, (int file, long length), (file, length))
FALLIBLE(int, rename, from, NO_FILE, (const char *from, const char *to), (from, to))
FALLIBLE(int, unlink, path, NO_FILE, (const char *path), (path))
FALLIBLE(int, bind, "", socket, (int socket, const struct address *address, unsigned length),
         (socket, address, length))
FALLIBLE(long, send, "", socket, (int socket, const void *octets, unsigned long count, int flags),
         (socket, octets, count, flags))
FALLIBLE(long, sendto, "", socket,
	 (int socket, const void *octets, unsigned long count, int flags, const struct address *address, unsigned length),
	 (socket, octets, count, flags, address, length))

/* Returns whether an open file is a folder: to read one is an error of its own, also if no byte is asked for. */
static int is_folder(int file)
{
	char none;

	return NEXT(read)(file, &none, 0) < 0 && *__errno_location() == IS_A_FOLDER;
}

/* Lets a call that forces a file to the disk be listed, fail, and be left out. */
#define SYNCING(name)                                                          \
	int name(int file)                                                     \
	{                                                                      \
		char text[LONGEST];                                            \
                                                                               \
		if (fails(is_folder(file) ? #name "_folder" : #name, "", file)) \
			return -1;                                             \
		return is_set("UNSYNCED", text) ? 0 : NEXT(name)(file);        \
	}

SYNCING(fsync)
SYNCING(fdatasync)

int open(const char *path, int flags, ...)
{
	__builtin_va_list more;
	unsigned mode = 0;
	char boot[LONGEST];

	if (flags & CREATES) {
		__builtin_va_start(more, flags);
		mode = __builtin_va_arg(more, unsigned);
		__builtin_va_end(more);
	}
	if (fails("open", path, NO_FILE))
		return -1;
	if (!strcmp(path, "/proc/sys/kernel/random/boot_id") && is_set("BOOT", boot))
		return file_of(boot);
	return NEXT(open)(path, flags, mode);
}

long write(int file, const void *octets, unsigned long count)
{
	const int is_output = file == STDOUT || file == STDERR;

	return !is_output && fails("write", "", file) ? -1 : NEXT(write)(file, octets, count);
}

static long slept;

int flock(int file, int operation)
{
	if (fails("flock", "", file))
		return -1;
	return slept < number("HELD") ? fail(WOULD_BLOCK) : NEXT(flock)(file, operation);
}

int nanosleep(const struct moment *time, struct moment *rest)
{
	if (number("HELD") < 0)
		return NEXT(nanosleep)(time, rest);
	slept += time->seconds * 1000 + time->nanoseconds / 1000000;
	return 0;
}

int getentropy(void *octets, unsigned long count)
{
	const long drawn = number("DRAWS");

	if (fails("getentropy", "", NO_FILE))
		return -1;
	if (drawn < 0)
		return NEXT(getentropy)(octets, count);
	memset(octets, (int)drawn, count);
	return 0;
}

int clock_gettime(int clock, struct moment *shown)
{
	const int is_time_of_day = clock == TIME_OF_DAY;
	const long seconds = is_time_of_day ? number("CLOCK") : -1;

	if (is_time_of_day && fails("clock_gettime", "", NO_FILE))
		return -1;
	if (seconds < 0)
		return NEXT(clock_gettime)(clock, shown);
	*shown = (struct moment){ .seconds = seconds };
	return 0;
}
