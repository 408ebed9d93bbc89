/*
 * Tries what docs/ap_accept.h says about bad arguments and about accepted AP-REQs. Prints each call that returns
 * something else, and the number of these calls.
 *
 *     cc -g -fsanitize=address,undefined -I docs -o ap_judged tests/services/ap_judged.c \
 *         crates/ap_accept_c/out/libap_accept.a
 *     ./ap_judged KEYTAB [AP-REQ]
 *
 * KEYTAB is a keytab's file. AP-REQ is the hexadecimal digits of an AP-REQ for a service of that keytab, made within
 * the last 300 seconds, without a subkey, as tests/services/mk_req.c prints it. Without it nothing here is accepted:
 * tests/services/ap_client.c tries that.
 */
#include "ap_accept.h"

#include <stdio.h>
#include <string.h>
#include <time.h>

enum { LONGEST = 65536, NOW = 1800000000, TOO_LONG = 1, LONGEST_KEY = 32, UNWRITTEN = 0xa5 };

static int failures;

static void expect(const char *what, long got, long wanted)
{
	if (got == wanted)
		return;
	printf("%s: %ld, not %ld\n", what, got, wanted);
	failures++;
}

/* An acceptor of a service that never ran before. */
static int32_t opened(struct ap_acceptor *acceptor, const uint8_t *keytab, size_t length, uint32_t remembered,
		      int64_t sec, uint32_t usec)
{
	return ap_open(AP_VERSION, acceptor, keytab, length, remembered, true, sec, usec);
}

static int32_t taken(struct ap_acceptor *acceptor, int64_t sec, uint32_t usec, const uint8_t *random,
		     const uint8_t *ap_req, size_t length, struct ap_accepted *accepted)
{
	return ap_accept(acceptor, sec, usec, random, ap_req, length, accepted, sizeof *accepted);
}

static void opens(const uint8_t *keytab, size_t length)
{
	struct ap_acceptor acceptor = AP_ACCEPTOR_INIT;
	const size_t beyond = (size_t)PTRDIFF_MAX + TOO_LONG;

	expect("no acceptor", opened(NULL, keytab, length, 1, NOW, 0), AP_BAD_ARGUMENT);
	expect("no keytab", opened(&acceptor, NULL, length, 1, NOW, 0), AP_BAD_ARGUMENT);
	expect("a length too great", opened(&acceptor, keytab, beyond, 1, NOW, 0), AP_BAD_ARGUMENT);
	expect("none remembered", opened(&acceptor, keytab, length, 0, NOW, 0), AP_BAD_ARGUMENT);
	expect("too many remembered", opened(&acceptor, keytab, length, 65537, NOW, 0), AP_BAD_ARGUMENT);
	expect("a second below 0", opened(&acceptor, keytab, length, 1, -1, 0), AP_BAD_ARGUMENT);
	expect("a second too great", opened(&acceptor, keytab, length, 1, 253402300800, 0), AP_BAD_ARGUMENT);
	expect("a microsecond too great", opened(&acceptor, keytab, length, 1, NOW, 1000000), AP_BAD_ARGUMENT);
	expect("an older version", ap_open(2, &acceptor, keytab, length, 1, true, NOW, 0), AP_OTHER_VERSION);
	expect("a later version", ap_open(4, &acceptor, keytab, length, 1, true, NOW, 0), AP_OTHER_VERSION);
	expect("an empty keytab", opened(&acceptor, keytab, 0, 1, NOW, 0), AP_BAD_KEYTAB);
	expect("no keytab, of no length", opened(&acceptor, NULL, 0, 1, NOW, 0), AP_BAD_KEYTAB);
	expect("a cut keytab", opened(&acceptor, keytab, length - 1, 1, NOW, 0), AP_BAD_KEYTAB);
	expect("still closed", ap_close(&acceptor), AP_CLOSED);
	expect("the least and last", opened(&acceptor, keytab, length, 1, 253402300799, 999999), AP_DONE);
	expect("open already", opened(&acceptor, keytab, length, 1, NOW, 0), AP_BAD_ARGUMENT);
	expect("closed", ap_close(&acceptor), AP_DONE);
	expect("closed twice", ap_close(&acceptor), AP_CLOSED);
	expect("the most", ap_open(AP_VERSION, &acceptor, keytab, length, 65536, false, 0, 0), AP_DONE);
	expect("closed again", ap_close(&acceptor), AP_DONE);
	expect("no acceptor to close", ap_close(NULL), AP_BAD_ARGUMENT);
}

static void replaces(struct ap_acceptor *acceptor, const uint8_t *keytab, size_t length, int32_t at_best)
{
	const size_t beyond = (size_t)PTRDIFF_MAX + TOO_LONG;

	expect("no acceptor", ap_replace_keytab(NULL, keytab, length), AP_BAD_ARGUMENT);
	expect("no keytab", ap_replace_keytab(acceptor, NULL, length), AP_BAD_ARGUMENT);
	expect("a length too great", ap_replace_keytab(acceptor, keytab, beyond), AP_BAD_ARGUMENT);
	expect("an empty keytab", ap_replace_keytab(acceptor, keytab, 0), at_best == AP_DONE ? AP_BAD_KEYTAB : at_best);
	expect("a cut keytab", ap_replace_keytab(acceptor, keytab, length - 1), at_best == AP_DONE ? AP_BAD_KEYTAB : at_best);
	expect("a keytab", ap_replace_keytab(acceptor, keytab, length), at_best);
}

static void accepts(struct ap_acceptor *acceptor, int32_t at_best)
{
	static const uint8_t random[16], octets[4] = { 0x6e, 0x02, 0x30, 0x00 };
	const size_t beyond = (size_t)PTRDIFF_MAX + TOO_LONG;
	struct ap_accepted accepted = { .authtime = 7 };

	expect("no acceptor", taken(NULL, NOW, 0, random, octets, 4, &accepted), AP_BAD_ARGUMENT);
	expect("no random octets", taken(acceptor, NOW, 0, NULL, octets, 4, &accepted), AP_BAD_ARGUMENT);
	expect("no AP-REQ", taken(acceptor, NOW, 0, random, NULL, 4, &accepted), AP_BAD_ARGUMENT);
	expect("a length too great", taken(acceptor, NOW, 0, random, octets, beyond, &accepted), AP_BAD_ARGUMENT);
	expect("nowhere to go", taken(acceptor, NOW, 0, random, octets, 4, NULL), AP_BAD_ARGUMENT);
	expect("nothing written", accepted.authtime, 7);
	expect("a second below 0", taken(acceptor, -1, 0, random, octets, 4, &accepted), AP_BAD_ARGUMENT);
	expect("a microsecond too great", taken(acceptor, NOW, 1000000, random, octets, 4, &accepted), AP_BAD_ARGUMENT);
	expect("no octets", taken(acceptor, NOW, 0, random, octets, 0, &accepted), at_best);
	expect("no octets at all", taken(acceptor, NOW, 0, random, NULL, 0, &accepted), at_best);
	expect("no AP-REQ's", taken(acceptor, NOW, 0, random, octets, 4, &accepted), at_best);
	expect("all zero", accepted.authtime, 0);
}

static void fetches(struct ap_acceptor *acceptor, int32_t at_best)
{
	const size_t beyond = (size_t)PTRDIFF_MAX + TOO_LONG;
	uint8_t to[4] = { 1, 2, 3, 4 };
	size_t length = 7;

	expect("no acceptor", ap_octets(NULL, AP_CLIENT_NAME, to, 4, &length), AP_BAD_ARGUMENT);
	expect("no buffer", ap_octets(acceptor, AP_CLIENT_NAME, NULL, 4, &length), AP_BAD_ARGUMENT);
	expect("a capacity too great", ap_octets(acceptor, AP_CLIENT_NAME, to, beyond, &length), AP_BAD_ARGUMENT);
	expect("no length", ap_octets(acceptor, AP_CLIENT_NAME, to, 4, NULL), AP_BAD_ARGUMENT);
	expect("no part 0", ap_octets(acceptor, 0, to, 4, &length), AP_BAD_ARGUMENT);
	expect("no part 10", ap_octets(acceptor, 10, to, 4, &length), AP_BAD_ARGUMENT);
	for (int part = AP_CLIENT_REALM; part <= AP_KRB_ERROR; part++)
		expect("nothing accepted", ap_octets(acceptor, (uint32_t)part, to, 4, &length), at_best);
	expect("none", ap_octets(acceptor, AP_CLIENT_NAME, NULL, 0, &length), at_best);
	expect("no length returned", (long)length, 0);
	expect("nothing written", memcmp(to, "\1\2\3\4", 4), 0);
}

/* An acceptor that is none: every call says so, and leaves it. */
static void forbids(struct ap_acceptor *acceptor, const uint8_t *keytab, size_t keytab_length)
{
	static const uint8_t random[16];
	const struct ap_acceptor before = *acceptor;
	struct ap_accepted accepted;
	size_t length;

	expect("none to open", opened(acceptor, keytab, keytab_length, 1, NOW, 0), AP_BAD_ARGUMENT);
	expect("none to replace", ap_replace_keytab(acceptor, keytab, keytab_length), AP_BAD_ARGUMENT);
	expect("none to accept", taken(acceptor, NOW, 0, random, keytab, keytab_length, &accepted), AP_BAD_ARGUMENT);
	expect("none to copy from", ap_octets(acceptor, AP_CLIENT_NAME, NULL, 0, &length), AP_BAD_ARGUMENT);
	expect("none to close", ap_close(acceptor), AP_BAD_ARGUMENT);
	expect("it is as it was", memcmp(acceptor, &before, sizeof before), 0);
}

/* One that was never initialized, and a copy of one that is open. */
static void knows_its_place(const uint8_t *keytab, size_t length)
{
	struct ap_acceptor acceptor = AP_ACCEPTOR_INIT, other;

	memset(&other, UNWRITTEN, sizeof other);
	forbids(&other, keytab, length);
	expect("one to copy", opened(&acceptor, keytab, length, 1, NOW, 0), AP_DONE);
	other = acceptor;
	forbids(&other, keytab, length);
	expect("the one that was copied", ap_close(&acceptor), AP_DONE);
	expect("its size", (long)ap_size(), (long)sizeof acceptor);
}

/* The numbers go where the caller says that they have room. */
static void writes_within(struct ap_acceptor *acceptor)
{
	static const uint8_t random[16];
	struct {
		struct ap_accepted accepted;
		uint8_t behind[16];
	} room;
	const size_t size = sizeof room.accepted;

	memset(&room, UNWRITTEN, sizeof room);
	expect("too small", ap_accept(acceptor, NOW, 0, random, NULL, 0, &room.accepted, size - 1), AP_BAD_ARGUMENT);
	expect("of no size", ap_accept(acceptor, NOW, 0, random, NULL, 0, &room.accepted, 0), AP_BAD_ARGUMENT);
	expect("nothing is written", room.accepted.authtime == (int64_t)0xa5a5a5a5a5a5a5a5, 1);
	expect("of its size", ap_accept(acceptor, NOW, 0, random, NULL, 0, &room.accepted, size), AP_NOT_AN_AP_REQ);
	expect("zero to the end", room.accepted.has_ticket_key_version, 0);
	expect("nothing behind it", room.behind[0], UNWRITTEN);
	expect("larger", ap_accept(acceptor, NOW, 0, random, NULL, 0, &room.accepted, size + 8), AP_NOT_AN_AP_REQ);
	expect("zero behind the numbers", room.behind[7], 0);
	expect("and no more", room.behind[8], UNWRITTEN);
}

/* Counts the bytes of the buffer that are unchanged, from this one on. */
static size_t unwritten(const uint8_t *to, size_t from, size_t end)
{
	size_t count = 0;

	for (size_t at = from; at < end; at++)
		count += to[at] == UNWRITTEN;
	return count;
}

/* An AP-REQ without a subkey is accepted, and its bytes can be read until the next one is accepted. */
static void keeps(const uint8_t *keytab, size_t keytab_length, const uint8_t *ap_req, size_t ap_req_length)
{
	static const uint8_t random[16], no_keys[2] = { 5, 2 };
	struct ap_acceptor acceptor = AP_ACCEPTOR_INIT;
	struct ap_accepted accepted = { .subkey_type = 7 };
	uint8_t key[LONGEST_KEY + 1], again[LONGEST_KEY + 1];
	size_t needed = 0, length = 0;
	int64_t now = (int64_t)time(NULL);

	memset(key, UNWRITTEN, sizeof(key));
	expect("open for an AP-REQ", opened(&acceptor, keytab, keytab_length, 1024, now, 0), AP_DONE);
	expect("accepted", taken(&acceptor, now, 0, random, ap_req, ap_req_length, &accepted), AP_DONE);
	expect("no type of a subkey", accepted.subkey_type, 0);
	expect("the key's length is asked for", ap_octets(&acceptor, AP_SESSION_KEY, NULL, 0, &needed), AP_TOO_SMALL);
	expect("the key's length", needed == 16 || needed == 32, 1);
	if (needed == 16 || needed == 32) {
		expect("a buffer an octet too small", ap_octets(&acceptor, AP_SESSION_KEY, key, needed - 1, &length), AP_TOO_SMALL);
		expect("the length is returned again", (long)length, (long)needed);
		expect("the buffer is as it was", (long)unwritten(key, 0, sizeof(key)), (long)sizeof(key));
		expect("the right buffer", ap_octets(&acceptor, AP_SESSION_KEY, key, needed, &length), AP_DONE);
		expect("no octet behind the key", (long)unwritten(key, needed, sizeof(key)), (long)(sizeof(key) - needed));
	}
	expect("no subkey", ap_octets(&acceptor, AP_SUBKEY, again, sizeof(again), &length), AP_ABSENT);
	expect("no length of a subkey", (long)length, 0);
	expect("a bad moment", taken(&acceptor, -1, 0, random, ap_req, ap_req_length, &accepted), AP_BAD_ARGUMENT);
	expect("no numbers after a bad moment", (long)accepted.endtime, 0);
	length = 7;
	expect("a bad part", ap_octets(&acceptor, 10, again, sizeof(again), &length), AP_BAD_ARGUMENT);
	expect("no length of a bad part", (long)length, 0);
	expect("the key is still there", ap_octets(&acceptor, AP_SESSION_KEY, again, sizeof(again), &length), AP_DONE);
	expect("it is the same", (long)length == (long)needed && memcmp(key, again, length) == 0, 1);
	expect("a keytab without keys", ap_replace_keytab(&acceptor, no_keys, sizeof(no_keys)), AP_DONE);
	expect("the key stays", ap_octets(&acceptor, AP_SESSION_KEY, again, sizeof(again), &length), AP_DONE);
	expect("no key for it", taken(&acceptor, now, 0, random, ap_req, ap_req_length, &accepted), AP_NOT_US);
	expect("no keytab", ap_replace_keytab(&acceptor, keytab, keytab_length - 1), AP_BAD_KEYTAB);
	expect("still no key", taken(&acceptor, now, 0, random, ap_req, ap_req_length, &accepted), AP_NOT_US);
	expect("the keys again", ap_replace_keytab(&acceptor, keytab, keytab_length), AP_DONE);
	expect("a repeat", taken(&acceptor, now, 0, random, ap_req, ap_req_length, &accepted), AP_REPEAT);
	expect("nothing accepted last", ap_octets(&acceptor, AP_SESSION_KEY, again, sizeof(again), &length), AP_ABSENT);
	expect("close after it", ap_close(&acceptor), AP_DONE);
}

/* What an acceptor accepted is a repeat for the one that resumes with what it saved. */
static void survives(const uint8_t *keytab, size_t keytab_length, const uint8_t *ap_req, size_t ap_req_length)
{
	static const uint8_t random[16];
	static uint8_t saved[LONGEST];
	struct ap_acceptor acceptor = AP_ACCEPTOR_INIT;
	struct ap_accepted accepted;
	size_t needed = 0, length = 0;
	int64_t now = (int64_t)time(NULL);

	expect("nothing to save", ap_save(&acceptor, saved, LONGEST, &length), AP_CLOSED);
	expect("open to save", opened(&acceptor, keytab, keytab_length, 1024, now, 0), AP_DONE);
	expect("accepted before", taken(&acceptor, now, 0, random, ap_req, ap_req_length, &accepted), AP_DONE);
	expect("the length that is saved", ap_save(&acceptor, NULL, 0, &needed), AP_TOO_SMALL);
	expect("no buffer", ap_save(&acceptor, NULL, 1, &length), AP_BAD_ARGUMENT);
	expect("no length", ap_save(&acceptor, saved, LONGEST, NULL), AP_BAD_ARGUMENT);
	expect("saved", ap_save(&acceptor, saved, needed, &length), AP_DONE);
	expect("its length", (long)length, (long)needed);
	expect("open already", ap_resume(AP_VERSION, &acceptor, keytab, keytab_length, 9, saved, length), AP_BAD_ARGUMENT);
	expect("close the one that saved", ap_close(&acceptor), AP_DONE);
	expect("a version", ap_resume(2, &acceptor, keytab, keytab_length, 9, saved, length), AP_OTHER_VERSION);
	expect("no room", ap_resume(AP_VERSION, &acceptor, keytab, keytab_length, 0, saved, length), AP_BAD_ARGUMENT);
	expect("no keytab", ap_resume(AP_VERSION, &acceptor, NULL, 0, 9, saved, length), AP_BAD_KEYTAB);
	expect("no bytes", ap_resume(AP_VERSION, &acceptor, keytab, keytab_length, 9, NULL, 0), AP_BAD_SAVED);
	for (size_t at = 0; at < length; at++) {
		expect("cut", ap_resume(AP_VERSION, &acceptor, keytab, keytab_length, 9, saved, at), AP_BAD_SAVED);
		saved[at] ^= 1;
		expect("damaged", ap_resume(AP_VERSION, &acceptor, keytab, keytab_length, 9, saved, length), AP_BAD_SAVED);
		saved[at] ^= 1;
	}
	expect("resumed", ap_resume(AP_VERSION, &acceptor, keytab, keytab_length, 9, saved, length), AP_DONE);
	expect("seen before", taken(&acceptor, now, 0, random, ap_req, ap_req_length, &accepted), AP_REPEAT);
	expect("close the one that resumed", ap_close(&acceptor), AP_DONE);
	expect("one that restarts", ap_open(AP_VERSION, &acceptor, keytab, keytab_length, 9, false, now, 0), AP_DONE);
	expect("seen by none", taken(&acceptor, now, 0, random, ap_req, ap_req_length, &accepted), AP_SKEW);
	expect("close the one that restarted", ap_close(&acceptor), AP_DONE);
}

/* The text of a part that has to be there. */
static const char *part(struct ap_acceptor *acceptor, uint32_t which)
{
	static char text[LONGEST];
	size_t length = 0;

	expect("a part", ap_octets(acceptor, which, text, sizeof text - 1, &length), AP_DONE);
	text[length] = '\0';
	return text;
}

/* A refused AP-REQ has a rule, a text, the ticket's service and key, and a KRB-ERROR; an accepted one no rule. */
static void says_why(const uint8_t *keytab, size_t keytab_length, const uint8_t *ap_req, size_t ap_req_length)
{
	static const uint8_t random[16];
	struct ap_acceptor acceptor = AP_ACCEPTOR_INIT;
	struct ap_accepted numbers;
	char name[256], text[256];
	uint8_t error[8192];
	size_t length = 7;
	int64_t now = (int64_t)time(NULL);

	expect("a name for a closed one", ap_set_service(&acceptor, "a", 1), AP_CLOSED);
	expect("open to refuse", opened(&acceptor, keytab, keytab_length, 1024, now, 0), AP_DONE);
	expect("for no name", ap_set_service(&acceptor, "a//b", 4), AP_BAD_ARGUMENT);
	expect("for no text", ap_set_service(&acceptor, "\xff", 1), AP_BAD_ARGUMENT);
	expect("for a null name", ap_set_service(&acceptor, NULL, 1), AP_BAD_ARGUMENT);
	expect("for another", ap_set_service(&acceptor, "some/other", 10), AP_DONE);
	expect("another's", taken(&acceptor, now, 0, random, ap_req, ap_req_length, &numbers), AP_NOT_US);
	expect("a version of the key", numbers.has_ticket_key_version, 1);
	expect("the first", (long)numbers.ticket_key_version, 1);
	expect("a type", numbers.ticket_key_type >= 17 && numbers.ticket_key_type <= 20, 1);
	expect("no other number", (long)numbers.endtime, 0);
	expect("the rule", (long)ap_rule(&acceptor, text, sizeof text), 10);
	expect("its name", strcmp(text, "not-for-us"), 0);
	expect("a rule that is cut", (long)ap_rule(&acceptor, text, 4), 10);
	expect("what is left of it", strcmp(text, "not"), 0);
	ap_text(&acceptor, AP_NOT_US, text, sizeof text);
	expect("its text", strcmp(text, "KRB_AP_ERR_NOT_US: the ticket is for another service"), 0);
	ap_text(&acceptor, AP_SKEW, text, sizeof text);
	expect("another status's text", strncmp(text, "KRB_AP_ERR_SKEW", 15), 0);
	strcpy(name, part(&acceptor, AP_SERVICE_NAME));
	expect("a realm", strlen(part(&acceptor, AP_SERVICE_REALM)) > 0, 1);
	expect("no client", ap_octets(&acceptor, AP_CLIENT_NAME, NULL, 0, &length), AP_ABSENT);
	expect("an error", ap_error(&acceptor, error, sizeof error, &length), AP_DONE);
	expect("a KRB-ERROR's tag", error[0], 0x7e);
	expect("for its name", ap_set_service(&acceptor, name, strlen(name)), AP_DONE);
	expect("its own", taken(&acceptor, now, 0, random, ap_req, ap_req_length, &numbers), AP_DONE);
	expect("the same service", strcmp(part(&acceptor, AP_SERVICE_NAME), name), 0);
	expect("no rule", (long)ap_rule(&acceptor, text, sizeof text), 0);
	expect("no error", ap_error(&acceptor, error, sizeof error, &length), AP_ABSENT);
	expect("for any", ap_set_service(&acceptor, NULL, 0), AP_DONE);
	expect("again", taken(&acceptor, now, 0, random, ap_req, ap_req_length, &numbers), AP_REPEAT);
	expect("its rule", (ap_rule(&acceptor, text, sizeof text), strcmp(text, "repeated")), 0);
	expect("close the one that refused", ap_close(&acceptor), AP_DONE);
	expect("no rule of a closed one", (long)ap_rule(&acceptor, text, sizeof text), 0);
}

/* An AP-REQ without a checksum and without authorization data. */
static void has_no_more(const uint8_t *keytab, size_t keytab_length, const uint8_t *ap_req, size_t ap_req_length)
{
	static const uint8_t random[16];
	struct ap_acceptor acceptor = AP_ACCEPTOR_INIT;
	struct ap_accepted numbers;
	uint8_t octets[4];
	size_t length = 7;
	int32_t type = 7;
	int64_t now = (int64_t)time(NULL);

	expect("a checksum of a closed one", ap_verify_checksum(&acceptor, "checksum", 8), AP_CLOSED);
	expect("an element of a closed one", ap_authorization(&acceptor, 1, 0, &type, octets, 4, &length), AP_CLOSED);
	expect("has no type", type, 0);
	expect("open for a checksum", opened(&acceptor, keytab, keytab_length, 1024, now, 0), AP_DONE);
	expect("a checksum of none", ap_verify_checksum(&acceptor, "checksum", 8), AP_ABSENT);
	expect("accepted without", taken(&acceptor, now, 0, random, ap_req, ap_req_length, &numbers), AP_DONE);
	expect("no checksum", ap_verify_checksum(&acceptor, "checksum", 8), AP_ABSENT);
	expect("no bytes for it", ap_verify_checksum(&acceptor, NULL, 8), AP_BAD_ARGUMENT);
	type = 7;
	for (uint32_t list = AP_OF_TICKET; list <= AP_OF_AUTHENTICATOR; list++)
		expect("no element", ap_authorization(&acceptor, list, 0, &type, octets, 4, &length), AP_ABSENT);
	expect("of no type", type, 0);
	expect("of no length", (long)length, 0);
	expect("no list", ap_authorization(&acceptor, 3, 0, &type, octets, 4, &length), AP_BAD_ARGUMENT);
	expect("nowhere for its type", ap_authorization(&acceptor, 1, 0, NULL, octets, 4, &length), AP_BAD_ARGUMENT);
	expect("close it", ap_close(&acceptor), AP_DONE);
}

/* The key that both sides share, without a subkey: the session key. What one end seals with it, another opens. */
static void shares(const uint8_t *keytab, size_t keytab_length, const uint8_t *ap_req, size_t ap_req_length)
{
	static const uint8_t random[16];
	struct ap_acceptor acceptor = AP_ACCEPTOR_INIT;
	struct ap_accepted numbers;
	struct ap_key key = { 7, { 7 } };
	uint8_t octets[LONGEST_KEY], sealed[64], text[64];
	size_t length = 0;
	int64_t now = (int64_t)time(NULL);

	expect("a key of a closed one", ap_shared_key(&acceptor, &key), AP_CLOSED);
	expect("open for a key", opened(&acceptor, keytab, keytab_length, 1024, now, 0), AP_DONE);
	expect("a key of nobody", ap_shared_key(&acceptor, &key), AP_ABSENT);
	expect("nothing written", key.type == 7 && key.octets[0] == 7, 1);
	expect("accepted for a key", taken(&acceptor, now, 0, random, ap_req, ap_req_length, &numbers), AP_DONE);
	expect("nowhere for a key", ap_shared_key(&acceptor, NULL), AP_BAD_ARGUMENT);
	expect("a key", ap_shared_key(&acceptor, &key), AP_DONE);
	expect("its type", key.type, numbers.session_key_type);
	expect("the session key", ap_octets(&acceptor, AP_SESSION_KEY, octets, sizeof octets, &length), AP_DONE);
	expect("the same", memcmp(key.octets, octets, length), 0);
	for (size_t at = length; at < LONGEST_KEY; at++)
		expect("zeros behind it", key.octets[at], 0);
	expect("close before it is used", ap_close(&acceptor), AP_DONE);
	expect("sealed", ap_seal(&key, 1024, random, "text", 4, sealed, sizeof sealed, &length), AP_DONE);
	expect("opened", ap_unseal(&key, 1024, sealed, length, text, sizeof text, &length), AP_DONE);
	expect("the text", length == 4 && memcmp(text, "text", 4) == 0, 1);
}

/* Bad arguments of the calls that take a key. */
static void protects(void)
{
	static const uint8_t random[16];
	const size_t beyond = (size_t)PTRDIFF_MAX + TOO_LONG;
	const struct ap_key key = { .type = 17 };
	uint8_t to[64] = { UNWRITTEN };
	size_t length = 7;

	expect("no key to seal", ap_seal(NULL, 1024, random, "text", 4, to, 64, &length), AP_BAD_ARGUMENT);
	expect("no random octets", ap_seal(&key, 1024, NULL, "text", 4, to, 64, &length), AP_BAD_ARGUMENT);
	expect("no text", ap_seal(&key, 1024, random, NULL, 4, to, 64, &length), AP_BAD_ARGUMENT);
	expect("a text too long", ap_seal(&key, 1024, random, "text", beyond, to, 64, &length), AP_BAD_ARGUMENT);
	expect("no buffer", ap_seal(&key, 1024, random, "text", 4, NULL, 64, &length), AP_BAD_ARGUMENT);
	expect("a buffer too long", ap_seal(&key, 1024, random, "text", 4, to, beyond, &length), AP_BAD_ARGUMENT);
	expect("no length", ap_seal(&key, 1024, random, "text", 4, to, 64, NULL), AP_BAD_ARGUMENT);
	expect("no key to open", ap_unseal(NULL, 1024, "text", 4, to, 64, &length), AP_BAD_ARGUMENT);
	expect("nothing to open", ap_unseal(&key, 1024, NULL, 4, to, 64, &length), AP_BAD_ARGUMENT);
	expect("nowhere to open", ap_unseal(&key, 1024, "text", 4, NULL, 64, &length), AP_BAD_ARGUMENT);
	expect("no key to sum", ap_checksum(NULL, 1024, "text", 4, to, 64, &length), AP_BAD_ARGUMENT);
	expect("nothing to sum", ap_checksum(&key, 1024, NULL, 4, to, 64, &length), AP_BAD_ARGUMENT);
	expect("no key to verify", ap_verify(NULL, 1024, "text", 4, "sum", 3), AP_BAD_ARGUMENT);
	expect("nothing to verify", ap_verify(&key, 1024, NULL, 4, "sum", 3), AP_BAD_ARGUMENT);
	expect("no checksum", ap_verify(&key, 1024, "text", 4, NULL, 3), AP_BAD_ARGUMENT);
	expect("a checksum too long", ap_verify(&key, 1024, "text", 4, "sum", beyond), AP_BAD_ARGUMENT);
	expect("nothing written", to[0], UNWRITTEN);
	expect("the length as it was", (long)length, 7);
	expect("no octets to open", ap_unseal(&key, 1024, NULL, 0, NULL, 0, &length), AP_BAD_INTEGRITY);
	expect("no octets opened", (long)length, 0);
	expect("a checksum of nothing", ap_verify(&key, 1024, NULL, 0, NULL, 0), AP_MODIFIED);
	expect("nothing, sealed", ap_seal(&key, 1024, random, NULL, 0, to, 64, &length), AP_DONE);
	expect("its length", (long)length, 28);
	expect("opened nowhere", ap_unseal(&key, 1024, to, 28, NULL, 0, &length), AP_DONE);
	expect("of no length", (long)length, 0);
}

/* The bytes for hexadecimal digits, and their number. */
static size_t octets_of(const char *digits, uint8_t *to)
{
	size_t count = 0, end = strlen(digits) / 2;
	unsigned int octet;

	for (; count < LONGEST && count < end && sscanf(digits + 2 * count, "%2x", &octet) == 1; count++)
		to[count] = (uint8_t)octet;
	return count;
}

static void texts(void)
{
	char text[256], cut[5] = "....";

	for (int status = -10; status < 100; status++) {
		size_t length = ap_text(NULL, status, text, sizeof(text));
		expect("a text", length > 0 && length < sizeof(text) && strlen(text) == length, 1);
		expect("its length alone", (long)ap_text(NULL, status, NULL, 100), (long)length);
	}
	expect("done", strcmp((ap_text(NULL, AP_DONE, text, sizeof(text)), text), "done"), 0);
	expect("a text that is cut", (long)ap_text(NULL, AP_NO_MEMORY, cut, sizeof(cut)), 13);
	expect("what is left of it", strcmp(cut, "out "), 0);
	expect("no room", (long)ap_text(NULL, AP_DONE, cut, 1), 4);
	expect("for more than its end", strcmp(cut, ""), 0);
	expect("a capacity of 0", (long)ap_text(NULL, AP_DONE, text, 0), 4);
	expect("no rule of no acceptor", (long)ap_rule(NULL, text, sizeof(text)), 0);
	expect("an empty text", strcmp(text, ""), 0);
}

int main(int count, char **words)
{
	static uint8_t keytab[LONGEST], ap_req[LONGEST];
	struct ap_acceptor acceptor = AP_ACCEPTOR_INIT;
	FILE *file = count == 2 || count == 3 ? fopen(words[1], "rb") : NULL;
	size_t length;

	if (file == NULL)
		return 2;
	length = fread(keytab, 1, LONGEST, file);
	fclose(file);
	opens(keytab, length);
	expect("the version", (long)ap_version(), AP_VERSION);
	replaces(&acceptor, keytab, length, AP_CLOSED);
	accepts(&acceptor, AP_CLOSED);
	fetches(&acceptor, AP_CLOSED);
	knows_its_place(keytab, length);
	expect("open", opened(&acceptor, keytab, length, 1, NOW, 0), AP_DONE);
	writes_within(&acceptor);
	replaces(&acceptor, keytab, length, AP_DONE);
	accepts(&acceptor, AP_NOT_AN_AP_REQ);
	fetches(&acceptor, AP_ABSENT);
	expect("close", ap_close(&acceptor), AP_DONE);
	if (count == 3) {
		keeps(keytab, length, ap_req, octets_of(words[2], ap_req));
		survives(keytab, length, ap_req, octets_of(words[2], ap_req));
		says_why(keytab, length, ap_req, octets_of(words[2], ap_req));
		has_no_more(keytab, length, ap_req, octets_of(words[2], ap_req));
		shares(keytab, length, ap_req, octets_of(words[2], ap_req));
	}
	protects();
	texts();
	printf("%d failed\n", failures);
	return failures != 0;
}
