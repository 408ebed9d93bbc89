/*
 * A service in C that accepts AP-REQ messages, by docs/ap_accept.h.
 *
 *     ap_service KEYTAB PORT [first] [save=FILE] [for=NAME] [CONNECTIONS]
 *
 * It listens on 127.0.0.1, reads an AP-REQ on each connection, prints who sent it and for which service, or why it is
 * refused, and answers with the AP-REP if the client asks for one. With a NAME it accepts for that service alone. At
 * SIGHUP it takes the keys of KEYTAB anew. It ends after CONNECTIONS connections, or at SIGTERM. When it ends, it saves
 * in FILE what it accepted, and goes on with that the next time. The word first says that it never ran before. Without
 * it and such a file all clients are refused for 301 seconds (docs/SERVICES.md, 'Starts and restarts').
 *
 * A connection has messages, each after its length in four bytes, the most significant first, as MIT's library writes
 * them (krb5_write_message). The client sends an AP-REQ and gets an AP-REP, or an empty message if it asked for none;
 * or it speaks as krb5_sendauth does. If it is refused, the service sends a KRB-ERROR to krb5_sendauth, which says why,
 * and closes the connection. It also closes it ten
 * seconds after it was accepted, however slowly its peer sends and reads: a limit for each read alone would let a peer
 * that sends a byte now and then keep it, and all others with it, since this example serves one connection at a time.
 *
 * docs/SERVICES.md, 'In C', says how to build it. It is C11, with what POSIX and getrandom add.
 */
#define _DEFAULT_SOURCE

#include "ap_accept.h"

#include <arpa/inet.h>
#include <fcntl.h>
#include <netinet/in.h>
#include <poll.h>
#include <signal.h>
#include <stdio.h>
#include <stdlib.h>
#include <string.h>
#include <sys/random.h>
#include <sys/select.h>
#include <sys/socket.h>
#include <time.h>
#include <unistd.h>

/* A whole exchange takes MOST_MILLISECONDS at most. */
enum { LONGEST_MESSAGE = 65536, REMEMBERED = 1024, MOST_MILLISECONDS = 10000 };

static const char SENDAUTH[] = "KRB5_SENDAUTH_V1.0";

struct message {
	uint8_t octets[LONGEST_MESSAGE];
	size_t length;
};

struct moment {
	int64_t sec;
	uint32_t usec;
};

/* A connection, and when it is closed, in the milliseconds of a clock that nobody sets. */
struct connection {
	int socket;
	int64_t end;
};

static void stop(const char *why)
{
	fprintf(stderr, "ap_service: %s\n", why);
	exit(1);
}

static struct moment now(void)
{
	struct timespec time;

	if (clock_gettime(CLOCK_REALTIME, &time) != 0)
		stop("no clock");
	return (struct moment){ time.tv_sec, (uint32_t)(time.tv_nsec / 1000) };
}

static int64_t milliseconds(void)
{
	struct timespec time;

	if (clock_gettime(CLOCK_MONOTONIC, &time) != 0)
		stop("no clock");
	return (int64_t)time.tv_sec * 1000 + time.tv_nsec / 1000000;
}

/* ---- messages on a connection */

/* Waits until the connection can be read or written. Returns false if it has to be closed before. */
static bool can_go_on(const struct connection *connection, short event)
{
	struct pollfd waiting = { .fd = connection->socket, .events = event };
	int64_t left = connection->end - milliseconds();

	return left > 0 && poll(&waiting, 1, (int)left) == 1;
}

static bool read_all(const struct connection *connection, void *to, size_t length)
{
	uint8_t *at = to;

	while (length > 0) {
		ssize_t got = can_go_on(connection, POLLIN) ? recv(connection->socket, at, length, MSG_DONTWAIT) : -1;
		if (got <= 0)
			return false;
		at += got;
		length -= (size_t)got;
	}
	return true;
}

static bool write_all(const struct connection *connection, const void *from, size_t length)
{
	const uint8_t *at = from;

	while (length > 0) {
		ssize_t put = can_go_on(connection, POLLOUT) ? send(connection->socket, at, length, MSG_NOSIGNAL | MSG_DONTWAIT) : -1;
		if (put <= 0)
			return false;
		at += put;
		length -= (size_t)put;
	}
	return true;
}

static bool read_message(const struct connection *connection, struct message *message)
{
	uint32_t length;

	if (!read_all(connection, &length, sizeof(length)))
		return false;
	message->length = ntohl(length);
	return message->length <= LONGEST_MESSAGE && read_all(connection, message->octets, message->length);
}

static bool write_message(const struct connection *connection, const void *octets, size_t length)
{
	uint32_t prefix = htonl((uint32_t)length);

	return write_all(connection, &prefix, sizeof(prefix)) && write_all(connection, octets, length);
}

/* Checks whether this is the first message of krb5_sendauth: its text followed by a NUL. */
static bool is_sendauth(const struct message *message)
{
	return message->length == sizeof(SENDAUTH) && memcmp(message->octets, SENDAUTH, sizeof(SENDAUTH)) == 0;
}

/*
 * After that text comes the application's own text. The service accepts any, and answers with a byte 0. Then the AP-REQ
 * comes.
 */
static bool read_after_sendauth(const struct connection *connection, struct message *message)
{
	static const uint8_t taken = 0;

	return read_message(connection, message) && write_all(connection, &taken, 1) && read_message(connection, message);
}

/* ---- what is accepted */

/* The bytes of a part, followed by a NUL; the caller frees them. NULL if there are none. */
static char *part_of(struct ap_acceptor *acceptor, enum ap_part part, size_t *length)
{
	int32_t status = ap_octets(acceptor, part, NULL, 0, length);
	char *octets;

	if (status == AP_ABSENT)
		return NULL;
	octets = status == AP_TOO_SMALL || status == AP_DONE ? malloc(*length + 1) : NULL;
	if (octets == NULL || ap_octets(acceptor, part, octets, *length, length) != AP_DONE)
		stop("no memory");
	octets[*length] = '\0';
	return octets;
}

/* A realm as text: other bytes than those of a name are '?'. Two realms may share one: it is for people. */
static char *shown(char *realm, size_t length)
{
	for (size_t at = 0; at < length; at++)
		if (realm[at] < 0x21 || realm[at] > 0x7e)
			realm[at] = '?';
	return realm;
}

/* Whom the AP-REQ is for, which anyone may have written if it is refused. */
static void print_service(struct ap_acceptor *acceptor)
{
	size_t length;
	char *name = part_of(acceptor, AP_SERVICE_NAME, &length);
	char *realm = part_of(acceptor, AP_SERVICE_REALM, &length);

	if (name != NULL && realm != NULL)
		printf(" for %s@%s", name, shown(realm, length));
	free(name);
	free(realm);
}

static void print_accepted(struct ap_acceptor *acceptor, const struct ap_accepted *accepted)
{
	size_t length;
	char *name = part_of(acceptor, AP_CLIENT_NAME, &length);
	char *realm = part_of(acceptor, AP_CLIENT_REALM, &length);

	printf("%s@%s", name, shown(realm, length));
	print_service(acceptor);
	printf(" until %lld, key type %d, subkey type %d, flags %08x", (long long)accepted->endtime,
	       accepted->session_key_type, accepted->subkey_type, accepted->flags);
	if (accepted->has_seq_number)
		printf(", number %lld", (long long)accepted->seq_number);
	if (accepted->has_checksum) {
		free(part_of(acceptor, AP_CHECKSUM, &length));
		printf(", checksum of type %d and %zu octets", accepted->checksum_type, length);
		printf("%s", ap_verify_checksum(acceptor, "checksum", 8) == AP_DONE ? " of 'checksum'" : "");
	}
	printf("%s\n", accepted->has_ap_rep ? ", asks for a reply" : "");
	free(name);
	free(realm);
}

static bool answer(const struct connection *connection, struct ap_acceptor *acceptor, bool sendauth)
{
	size_t length = 0;
	char *reply = part_of(acceptor, AP_AP_REP, &length);
	/*
	 * krb5_sendauth expects an empty message first, which says that there is no error, and no other message if it asked
	 * for no reply
	 */
	bool done = !sendauth || write_message(connection, NULL, 0);

	if (done && (reply != NULL || !sendauth))
		done = write_message(connection, reply == NULL ? "" : reply, length);
	free(reply);
	return done;
}

static void print_refused(struct ap_acceptor *acceptor, int32_t status, const struct ap_accepted *numbers)
{
	char rule[32], why[256];

	ap_rule(acceptor, rule, sizeof(rule));
	ap_text(acceptor, status, why, sizeof(why));
	printf("refused %d%s%s: %s", status, rule[0] == '\0' ? "" : " ", rule, why);
	if (numbers->has_ticket_key_version)
		printf(": key version %lld, type %d", (long long)numbers->ticket_key_version, numbers->ticket_key_type);
	print_service(acceptor);
	printf("\n");
}

/* krb5_sendauth reads a KRB-ERROR where it expects the empty message. */
static void refuse(const struct connection *connection, struct ap_acceptor *acceptor, bool sendauth)
{
	uint8_t error[8192];
	size_t length;

	if (sendauth && ap_error(acceptor, error, sizeof(error), &length) == AP_DONE)
		write_message(connection, error, length);
}

static void serve(const struct connection *connection, struct ap_acceptor *acceptor)
{
	static struct message message;
	struct ap_accepted accepted;
	struct moment at;
	uint8_t random[16];
	bool sendauth;
	int32_t status;

	if (!read_message(connection, &message)) {
		printf("no message\n");
		return;
	}
	sendauth = is_sendauth(&message);
	if (sendauth && !read_after_sendauth(connection, &message)) {
		printf("no message\n");
		return;
	}
	if (getrandom(random, sizeof(random), 0) != sizeof(random))
		stop("no random octets");
	at = now();
	status = ap_accept(acceptor, at.sec, at.usec, random, message.octets, message.length, &accepted, sizeof accepted);
	if (status != AP_DONE) {
		print_refused(acceptor, status, &accepted);
		refuse(connection, acceptor, sendauth);
		return;
	}
	print_accepted(acceptor, &accepted);
	if (!answer(connection, acceptor, sendauth))
		printf("the answer is not taken\n");
}

/* ---- starting */

static int listen_on(const char *port)
{
	struct sockaddr_in address = { .sin_family = AF_INET, .sin_port = htons((uint16_t)atoi(port)) };
	int listener = socket(AF_INET, SOCK_STREAM, 0), one = 1;

	address.sin_addr.s_addr = htonl(INADDR_LOOPBACK);
	setsockopt(listener, SOL_SOCKET, SO_REUSEADDR, &one, sizeof(one));
	if (listener < 0 || bind(listener, (struct sockaddr *)&address, sizeof(address)) != 0 || listen(listener, 16) != 0)
		stop("the port can't be listened on");
	return listener;
}

/* A file's bytes, which the caller frees, and their number; NULL if it can't be read. */
static uint8_t *file_at(const char *path, size_t *length)
{
	FILE *file = fopen(path, "rb");
	uint8_t *octets = NULL;
	long end = -1;

	if (file == NULL)
		return NULL;
	if (fseek(file, 0, SEEK_END) == 0 && (end = ftell(file)) >= 0 && fseek(file, 0, SEEK_SET) == 0)
		octets = malloc((size_t)end + 1);
	*length = octets == NULL ? 0 : fread(octets, 1, (size_t)end, file);
	fclose(file);
	return octets;
}

/* Syncs the folder of a file: a file that was removed stays gone after a power failure. */
static bool sync_folder(const char *path)
{
	char folder[4096] = ".";
	const char *end = strrchr(path, '/');
	int file;
	bool done;

	if (end != NULL && (size_t)(end - path) + 2 > sizeof folder)
		return false;
	if (end != NULL)
		snprintf(folder, sizeof folder, "%.*s/", (int)(end - path), path);
	file = open(folder, O_RDONLY | O_DIRECTORY);
	done = file >= 0 && fsync(file) == 0;
	if (file >= 0)
		close(file);
	return done;
}

/* Goes on with what the service saved the last time. The file is gone before anything is accepted. */
static int32_t resume(struct ap_acceptor *acceptor, const uint8_t *keytab, size_t keytab_length, const char *path)
{
	size_t length = 0;
	uint8_t *saved = file_at(path, &length);
	int32_t status = AP_BAD_SAVED;

	if (saved != NULL && remove(path) == 0 && sync_folder(path))
		status = ap_resume(AP_VERSION, acceptor, keytab, keytab_length, REMEMBERED, saved, length);
	free(saved);
	return status;
}

static void open_acceptor(struct ap_acceptor *acceptor, const char *path, bool is_first, const char *saved)
{
	struct moment at = now();
	char why[256];
	size_t length = 0;
	uint8_t *keytab = file_at(path, &length);
	int32_t status = AP_BAD_SAVED;

	if (keytab == NULL)
		stop("the keytab can't be read");
	if (saved != NULL)
		status = resume(acceptor, keytab, length, saved);
	if (status == AP_BAD_SAVED)
		status = ap_open(AP_VERSION, acceptor, keytab, length, REMEMBERED, is_first, at.sec, at.usec);
	free(keytab);
	if (status != AP_DONE) {
		ap_text(NULL, status, why, sizeof(why));
		stop(why);
	}
}

/* ---- signals */

static volatile sig_atomic_t is_asked_to_end, is_asked_to_read;

static void take_signal(int number)
{
	if (number == SIGHUP)
		is_asked_to_read = 1;
	else
		is_asked_to_end = 1;
}

/* Takes the keys of the keytab anew. If that can't be read, the old ones stay. */
static void read_keys(struct ap_acceptor *acceptor, const char *path)
{
	size_t length = 0;
	uint8_t *keytab = file_at(path, &length);
	int32_t status = keytab == NULL ? AP_BAD_KEYTAB : ap_replace_keytab(acceptor, keytab, length);

	is_asked_to_read = 0;
	free(keytab);
	printf("%s\n", status == AP_DONE ? "the keys are read" : "the keytab can't be read: the old keys stay");
}

/* Waits for a connection. Returns false if the service is asked to end; only here does a signal come in. */
static bool waits_for_one(int listener, const sigset_t *usual, struct ap_acceptor *acceptor, const char *path)
{
	fd_set listeners;
	int ready;

	do {
		if (is_asked_to_read)
			read_keys(acceptor, path);
		FD_ZERO(&listeners);
		FD_SET(listener, &listeners);
		ready = is_asked_to_end ? 0 : pselect(listener + 1, &listeners, NULL, NULL, NULL, usual);
	} while (ready < 0 && !is_asked_to_end);
	return ready > 0;
}

static sigset_t take_signals(void)
{
	struct sigaction taken = { .sa_handler = take_signal };
	sigset_t signals, usual;

	sigemptyset(&signals);
	sigaddset(&signals, SIGTERM);
	sigaddset(&signals, SIGHUP);
	if (sigprocmask(SIG_BLOCK, &signals, &usual) != 0 || sigaction(SIGTERM, &taken, NULL) != 0 ||
	    sigaction(SIGHUP, &taken, NULL) != 0)
		stop("signals can't be taken");
	return usual;
}

/* Saves what was accepted, whole or not at all. Without the file, the next start refuses all clients for a while. */
static void save(struct ap_acceptor *acceptor, const char *path)
{
	char beside[4096];
	size_t length = 0;
	uint8_t *saved = NULL;
	int file;

	if (ap_save(acceptor, NULL, 0, &length) == AP_TOO_SMALL)
		saved = malloc(length);
	if (saved == NULL || ap_save(acceptor, saved, length, &length) != AP_DONE)
		stop("no memory to save");
	if ((size_t)snprintf(beside, sizeof beside, "%s.new", path) >= sizeof beside)
		stop("the name is too long");
	file = open(beside, O_WRONLY | O_CREAT | O_TRUNC, 0600);
	if (file < 0 || write(file, saved, length) != (ssize_t)length || fsync(file) != 0 || rename(beside, path) != 0 ||
	    !sync_folder(path))
		stop("what was accepted can't be saved");
	close(file);
	free(saved);
}

int main(int count, char **words)
{
	struct ap_acceptor acceptor = AP_ACCEPTOR_INIT;
	bool is_first = count > 3 && strcmp(words[3], "first") == 0;
	int at = is_first ? 4 : 3, listener;
	const char *saved = count > at && strncmp(words[at], "save=", 5) == 0 ? words[at++] + 5 : NULL;
	const char *name = count > at && strncmp(words[at], "for=", 4) == 0 ? words[at++] + 4 : "";
	long connections = -1;
	sigset_t usual;

	if (count < 3 || count > at + 1)
		stop("ap_service KEYTAB PORT [first] [save=FILE] [for=NAME] [CONNECTIONS]");
	if (count > at)
		connections = atol(words[at]);
	setvbuf(stdout, NULL, _IOLBF, 0);
	usual = take_signals();
	open_acceptor(&acceptor, words[1], is_first, saved);
	if (ap_set_service(&acceptor, name, strlen(name)) != AP_DONE)
		stop("the name is not that of a service");
	listener = listen_on(words[2]);
	for (; connections != 0 && waits_for_one(listener, &usual, &acceptor, words[1]); connections -= connections > 0) {
		struct connection connection = { .socket = accept(listener, NULL, NULL), .end = milliseconds() + MOST_MILLISECONDS };
		if (connection.socket < 0)
			continue;
		serve(&connection, &acceptor);
		close(connection.socket);
	}
	close(listener);
	if (saved != NULL)
		save(&acceptor, saved);
	ap_close(&acceptor);
	return 0;
}
