/*
 * Threads that accept AP-REQs: with one acceptor and one lock for all, where each AP-REQ is accepted once; and with an
 * acceptor each, where each thread accepts every AP-REQ once. Each seals with the key that it shares, without a lock.
 * Prints what differs, and the number of these calls.
 *
 *     cc -g -fsanitize=thread -I docs -o ap_threads tests/services/ap_threads.c \
 *         crates/ap_accept_c/out/libap_accept.a -lpthread
 *     ./ap_threads KEYTAB AP-REQ ..
 *
 * KEYTAB is a keytab's file. An AP-REQ is the hexadecimal digits of one for a service of that keytab, made within the
 * last 300 seconds.
 */
#include "ap_accept.h"

#include <pthread.h>
#include <stdatomic.h>
#include <stdio.h>
#include <string.h>
#include <time.h>

enum { LONGEST = 8192, THREADS = 8, ROUNDS = 50, MOST = 16 };

struct octets {
	uint8_t octets[LONGEST];
	size_t length;
};

static struct octets keytab, requests[MOST];
static size_t request_count;
static pthread_mutex_t lock = PTHREAD_MUTEX_INITIALIZER;
static struct ap_acceptor shared = AP_ACCEPTOR_INIT;
static atomic_int accepted_by_all, failures;

static void expect(const char *what, long got, long wanted)
{
	if (got == wanted)
		return;
	printf("%s: %ld, not %ld\n", what, got, wanted);
	failures++;
}

static int32_t opened(struct ap_acceptor *acceptor)
{
	return ap_open(AP_VERSION, acceptor, keytab.octets, keytab.length, 64, true, (int64_t)time(NULL), 0);
}

/* Accepts an AP-REQ, and copies the client's name and the shared key. Nothing may come in between. */
static int32_t take(struct ap_acceptor *acceptor, const struct octets *request, struct ap_key *key)
{
	static const uint8_t random[16];
	struct ap_accepted numbers;
	char name[64];
	size_t length;
	int32_t status = ap_accept(acceptor, (int64_t)time(NULL), 0, random, request->octets, request->length, &numbers,
				   sizeof numbers);

	if (status != AP_DONE)
		return status;
	expect("a name", ap_octets(acceptor, AP_CLIENT_NAME, name, sizeof name, &length), AP_DONE);
	expect("a key", ap_shared_key(acceptor, key), AP_DONE);
	return status;
}

static void protect(const struct ap_key *key)
{
	static const uint8_t random[16];
	uint8_t sealed[64], text[64];
	size_t length;

	expect("sealed", ap_seal(key, 1024, random, "text", 4, sealed, sizeof sealed, &length), AP_DONE);
	expect("opened", ap_unseal(key, 1024, sealed, length, text, sizeof text, &length), AP_DONE);
	expect("the text", length == 4 && memcmp(text, "text", 4) == 0, 1);
}

static void *with_one(void *none)
{
	for (int round = 0; round < ROUNDS; round++)
		for (size_t at = 0; at < request_count; at++) {
			struct ap_key key;
			int32_t status;

			pthread_mutex_lock(&lock);
			status = take(&shared, &requests[at], &key);
			pthread_mutex_unlock(&lock);
			if (status == AP_DONE) {
				accepted_by_all++;
				protect(&key);
			} else {
				expect("a repeat", status, AP_REPEAT);
			}
		}
	return none;
}

static void *with_its_own(void *none)
{
	struct ap_acceptor own = AP_ACCEPTOR_INIT;
	struct ap_key key;

	expect("open", opened(&own), AP_DONE);
	for (int round = 0; round < ROUNDS; round++)
		for (size_t at = 0; at < request_count; at++) {
			int32_t status = take(&own, &requests[at], &key);

			expect("accepted once", status, round == 0 ? AP_DONE : AP_REPEAT);
			if (status == AP_DONE)
				protect(&key);
		}
	expect("close", ap_close(&own), AP_DONE);
	return none;
}

static void run(void *(*what)(void *))
{
	pthread_t threads[THREADS];

	for (int at = 0; at < THREADS; at++)
		expect("a thread", pthread_create(&threads[at], NULL, what, NULL), 0);
	for (int at = 0; at < THREADS; at++)
		pthread_join(threads[at], NULL);
}

static void read_digits(const char *digits, struct octets *to)
{
	unsigned int octet;

	for (to->length = 0; to->length < LONGEST && sscanf(digits + 2 * to->length, "%2x", &octet) == 1; to->length++)
		to->octets[to->length] = (uint8_t)octet;
}

int main(int count, char **words)
{
	FILE *file = count > 2 && count - 2 <= MOST ? fopen(words[1], "rb") : NULL;

	if (file == NULL)
		return 2;
	keytab.length = fread(keytab.octets, 1, LONGEST, file);
	fclose(file);
	for (; request_count < (size_t)count - 2; request_count++)
		read_digits(words[request_count + 2], &requests[request_count]);
	expect("open for all", opened(&shared), AP_DONE);
	run(with_one);
	expect("each accepted once by all", accepted_by_all, (long)request_count);
	expect("close for all", ap_close(&shared), AP_DONE);
	run(with_its_own);
	printf("%d failed\n", failures);
	return failures != 0;
}
