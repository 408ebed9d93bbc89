/*
 * A library to preload into a program. It refuses allocations, and lets reads of standard input and writes to standard
 * output fail. `refused_memory` of tests/harness/trial.py makes it with the toolchain's compiler, which has no headers
 * of the C library.
 *
 *     LD_PRELOAD=./refused_memory.so COUNTED=counted REFUSED=7 kadm list --db database
 *     LD_PRELOAD=./refused_memory.so REPORT=1 crates/base_tests/out/base_tests_tests \
 *         messages::fields::names_are_read_and_written
 *
 * A setting is a variable of the environment.
 *
 * REFUSED=NUMBER   the allocation with this number fails
 * COUNTED=FILE     the number of allocations is written to this file at the end
 * PIECE=NUMBER     a read of standard input gives at most this many bytes
 * READS=NUMBER     a read of standard input fails after this many
 * WRITES=NUMBER    a write to standard output fails after this many
 * REPORT=FILE      marks count (below), and this open file gets the lines about them
 *
 * Marks: a test asks for as many bytes as no system has. Between the marks BEGIN and END each allocation is refused
 * once. For that the program forks at the allocation: in the child this one allocation fails, and the parent waits for
 * the child and continues with the allocation. The child runs until the mark JUDGED, or to its end: by then it has
 * asserted what the test has to assert after a refusal. So one run refuses each allocation of each marked call. Lines
 * of the report:
 *
 *     call NUMBER of REFUSALS                      at each mark END, of the parent
 *     wrong CALL ALLOCATION STATUS LAST WORDS      a child that ended in another way; its wait status, and the end of
 *                                                  what it printed
 */

enum {
	LAST_WORDS = 400,
	CPU_SECONDS = 0, /* RLIMIT_CPU */
	CHILDS_SECONDS = 20,
	WRITES_ANEW = 01101, /* O_WRONLY | O_CREAT | O_TRUNC */
	INTERRUPTED = 4,
	CONNECTION_RESET = 104,
	TO_THE_END = 2
};

static const unsigned long BEGIN = 1ul << 62, END = 1ul << 61, JUDGED = 1ul << 60;
static const long NEVER = (1ul << 63) - 1;

struct limit {
	unsigned long soft, hard;
};

extern char *getenv(const char *);
extern int *__errno_location(void);
extern int close(int), dprintf(int, const char *, ...), dup2(int, int), fork(void), ftruncate(int, long);
extern int memfd_create(const char *, unsigned);
extern int open(const char *, int, ...), setrlimit(int, const struct limit *), waitpid(int, int *, int);
extern long lseek(int, long, int), pread(int, void *, unsigned long, long), strtol(const char *, char **, int);
extern void *dlsym(void *, const char *);
extern _Noreturn void _exit(int);

/* The function of the system with this name. It is looked up once, since a look-up may allocate. */
#define NEXT(name)                                                              \
	static __typeof__(&name) next;                                          \
	if (!next)                                                              \
		next = (__typeof__(&name))dlsym((void *)-1, #name)

/* A number that a setting gives, or another one if it is not there. */
static long number(const char *name, long otherwise)
{
	const char *given = getenv(name);

	return given ? strtol(given, 0, 10) : otherwise;
}

static long allocations, calls, refusals;
static int is_read, is_marked, is_child, report, words;
static long refused;

static void read_settings(void)
{
	if (is_read)
		return;
	is_read = 1;
	refused = number("REFUSED", 0);
	report = (int)number("REPORT", -1);
}

static void report_child(int status)
{
	char said[LAST_WORDS + 1];
	const long end = lseek(words, 0, TO_THE_END);
	long count = pread(words, said, LAST_WORDS, end > LAST_WORDS ? end - LAST_WORDS : 0);

	if (count < 0)
		count = 0;
	said[count] = 0;
	for (char *each = said; *each; each++)
		if (*each == '\n')
			*each = ' ';
	dprintf(report, "wrong %ld %ld %d %s\n", calls, refusals, status, said);
}

/* Makes a child in which this allocation is refused. Returns whether this is the child. */
static int is_refused_in_child(void)
{
	const struct limit limit = { CHILDS_SECONDS, CHILDS_SECONDS };
	int status = -1, child;

	/* What is called here may allocate. */
	is_marked = 0;
	words = words ? words : memfd_create("words", 0);
	ftruncate(words, 0);
	lseek(words, 0, 0);
	refusals++;
	child = fork();
	if (child == 0) {
		is_child = 1;
		dup2(words, 1);
		dup2(words, 2);
		setrlimit(CPU_SECONDS, &limit);
		return 1;
	}
	while (child > 0 && waitpid(child, &status, 0) < 0 && *__errno_location() == INTERRUPTED) {
	}
	if (status)
		report_child(status);
	is_marked = 1;
	return 0;
}

/* Handles a size that is a mark. */
static int is_mark(unsigned long size)
{
	if (report < 0 || (size != BEGIN && size != END && size != JUDGED))
		return 0;
	if (is_child && size == JUDGED)
		_exit(0);
	if (is_child)
		return 1;
	if (size == BEGIN) {
		calls++;
		refusals = 0;
	}
	is_marked = size == BEGIN;
	if (size == END)
		dprintf(report, "call %ld of %ld\n", calls, refusals);
	return 1;
}

static int is_refused(unsigned long size)
{
	read_settings();
	if (is_mark(size))
		return 1;
	if (++allocations == refused)
		return 1;
	return is_marked && !is_child && is_refused_in_child();
}

void *malloc(unsigned long size)
{
	NEXT(malloc);
	return is_refused(size) ? 0 : next(size);
}

void *realloc(void *old, unsigned long size)
{
	NEXT(realloc);
	return is_refused(size) ? 0 : next(old, size);
}

void *aligned_alloc(unsigned long align, unsigned long size)
{
	NEXT(aligned_alloc);
	return is_refused(size) ? 0 : next(align, size);
}

static long failed(void)
{
	*__errno_location() = CONNECTION_RESET;
	return -1;
}

long read(int file, void *to, unsigned long size)
{
	static long reads;
	NEXT(read);
	const unsigned long most = number("PIECE", NEVER);

	if (file != 0)
		return next(file, to, size);
	return reads++ == number("READS", NEVER) ? failed() : next(file, to, size < most ? size : most);
}

long write(int file, const void *from, unsigned long size)
{
	static long writes;
	NEXT(write);
	return file == 1 && writes++ == number("WRITES", NEVER) ? failed() : next(file, from, size);
}

__attribute__((destructor)) static void write_count(void)
{
	const char *name = is_child ? 0 : getenv("COUNTED");
	const long counted = allocations;
	const int file = name ? open(name, WRITES_ANEW, 0666) : -1;

	if (file < 0)
		return;
	dprintf(file, "%ld", counted);
	close(file);
}
