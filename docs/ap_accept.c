/*
 * The functions of ap_accept.h: each checks its arguments, and then calls the one of crates/ap_accept_c/src/exports.rt
 * that does the work. Those are proved, for pointers that are not null and lengths that are true; this file is not.
 *
 * dev/c_library.py compiles it into the library.
 */
#include "ap_accept.h"

#include <string.h>

/* ---- what crates/ap_accept_c takes */

/* `Holder` of holder.rt, `Time` and `Start` of calls.rt */
struct holder {
	bool is_open;
	void *held;
};

struct moment {
	int64_t sec;
	uint32_t usec;
};

struct start {
	uint32_t remembered;
	bool is_first;
	struct moment moment;
};

/* `Place` of elements.rt, `Found` of exports.rt */
struct place {
	uint32_t list;
	size_t index;
};

struct found {
	int32_t number;
	size_t length;
};

/* `Sealing` of protection.rt */
struct sealing {
	uint32_t usage;
	uint8_t random[16];
};

int32_t ap_accept_c_v3_open(struct holder *holder, const uint8_t *keytab, size_t length, const struct start *start);
int32_t ap_accept_c_v3_resume(struct holder *holder, const uint8_t *keytab, size_t keytab_length, const uint8_t *saved,
			      size_t saved_length, uint32_t remembered);
int32_t ap_accept_c_v3_save(struct holder *holder, uint8_t *to, size_t capacity, size_t *length);
int32_t ap_accept_c_v3_replace_keytab(struct holder *holder, const uint8_t *keytab, size_t length);
int32_t ap_accept_c_v3_accept(struct holder *holder, const struct moment *moment, const uint8_t *random,
			      const uint8_t *ap_req, size_t length, struct ap_accepted *accepted);
int32_t ap_accept_c_v3_octets(struct holder *holder, uint32_t part, uint8_t *to, size_t capacity, size_t *length);
int32_t ap_accept_c_v3_close(struct holder *holder);
int32_t ap_accept_c_v3_name(struct holder *holder, const uint8_t *text, size_t length);
size_t ap_accept_c_v3_rule(struct holder *holder, uint8_t *to, size_t capacity);
size_t ap_accept_c_v3_text(struct holder *holder, int32_t status, uint8_t *to, size_t capacity);
int32_t ap_accept_c_v3_element(struct holder *holder, const struct place *place, uint8_t *to, size_t capacity,
			       struct found *found);
int32_t ap_accept_c_v3_check(struct holder *holder, const uint8_t *octets, size_t length);
int32_t ap_accept_c_v3_key(struct holder *holder, struct ap_key *key);
int32_t ap_accept_c_v3_seal(const struct ap_key *key, const struct sealing *sealing, const uint8_t *text,
			    size_t text_length, uint8_t *to, size_t capacity, size_t *length);
int32_t ap_accept_c_v3_unseal(const struct ap_key *key, uint32_t usage, const uint8_t *sealed, size_t sealed_length,
			      uint8_t *to, size_t capacity, size_t *length);
int32_t ap_accept_c_v3_checksum(const struct ap_key *key, uint32_t usage, const uint8_t *text, size_t text_length,
				uint8_t *to, size_t capacity, size_t *length);
int32_t ap_accept_c_v3_verify(const struct ap_key *key, uint32_t usage, const uint8_t *text, size_t text_length,
			      const uint8_t *checksum, size_t checksum_length);
uint32_t ap_accept_c_v3_version(void);

/* ---- arguments */

/* The size of struct ap_accepted in version 3, the first that hands it over. */
enum { LEAST_ACCEPTED = 72 };

/* The size is that of the numbers alone, so a number more changes it. */
typedef char numbers_fill_it[sizeof(struct ap_accepted) == LEAST_ACCEPTED ? 1 : -1];

/* Whether these are bytes. No bytes may be at a null pointer. */
static bool are_bytes(const void *at, size_t length)
{
	return length <= PTRDIFF_MAX && (at != NULL || length == 0);
}

/* A pointer that is not null to the same bytes. */
static const uint8_t *bytes_at(const void *at)
{
	static const uint8_t none;

	return at == NULL ? &none : (const uint8_t *)at;
}

/* Whether this is an acceptor, open or closed. One that is open knows its place. */
static bool is_acceptor(const struct ap_acceptor *acceptor)
{
	return acceptor != NULL && (acceptor->self == acceptor || (acceptor->self == NULL && acceptor->held == NULL));
}

static struct holder holder_of(const struct ap_acceptor *acceptor)
{
	struct holder holder = { acceptor->self != NULL, acceptor->held };

	return holder;
}

/* Leaves an acceptor as a call left its holder, and returns the call's status. */
static int32_t left(struct ap_acceptor *acceptor, const struct holder *holder, int32_t status)
{
	acceptor->self = holder->is_open ? acceptor : NULL;
	acceptor->held = holder->is_open ? holder->held : NULL;
	return status;
}

/* ---- calls */

int32_t ap_open(uint32_t version, struct ap_acceptor *acceptor, const void *keytab, size_t keytab_length,
		uint32_t remembered, bool is_first, int64_t sec, uint32_t usec)
{
	const struct start start = { remembered, is_first, { sec, usec } };
	struct holder holder;

	if (version != AP_VERSION)
		return AP_OTHER_VERSION;
	if (!is_acceptor(acceptor) || !are_bytes(keytab, keytab_length))
		return AP_BAD_ARGUMENT;
	holder = holder_of(acceptor);
	return left(acceptor, &holder, ap_accept_c_v3_open(&holder, bytes_at(keytab), keytab_length, &start));
}

int32_t ap_resume(uint32_t version, struct ap_acceptor *acceptor, const void *keytab, size_t keytab_length,
		  uint32_t remembered, const void *saved, size_t saved_length)
{
	struct holder holder;

	if (version != AP_VERSION)
		return AP_OTHER_VERSION;
	if (!is_acceptor(acceptor) || !are_bytes(keytab, keytab_length) || !are_bytes(saved, saved_length))
		return AP_BAD_ARGUMENT;
	holder = holder_of(acceptor);
	return left(acceptor, &holder,
		    ap_accept_c_v3_resume(&holder, bytes_at(keytab), keytab_length, bytes_at(saved), saved_length,
					  remembered));
}

int32_t ap_save(struct ap_acceptor *acceptor, void *to, size_t capacity, size_t *length)
{
	struct holder holder;
	uint8_t none;

	if (!is_acceptor(acceptor) || !are_bytes(to, capacity) || length == NULL)
		return AP_BAD_ARGUMENT;
	holder = holder_of(acceptor);
	return left(acceptor, &holder,
		    ap_accept_c_v3_save(&holder, to == NULL ? &none : (uint8_t *)to, capacity, length));
}

int32_t ap_replace_keytab(struct ap_acceptor *acceptor, const void *keytab, size_t keytab_length)
{
	struct holder holder;

	if (!is_acceptor(acceptor) || !are_bytes(keytab, keytab_length))
		return AP_BAD_ARGUMENT;
	holder = holder_of(acceptor);
	return left(acceptor, &holder, ap_accept_c_v3_replace_keytab(&holder, bytes_at(keytab), keytab_length));
}

int32_t ap_accept(struct ap_acceptor *acceptor, int64_t sec, uint32_t usec, const uint8_t *random, const void *ap_req,
		  size_t ap_req_length, struct ap_accepted *accepted, size_t size)
{
	const struct moment moment = { sec, usec };
	struct ap_accepted numbers;
	struct holder holder;
	int32_t status;

	if (!is_acceptor(acceptor) || random == NULL || !are_bytes(ap_req, ap_req_length))
		return AP_BAD_ARGUMENT;
	if (accepted == NULL || size < LEAST_ACCEPTED || size > PTRDIFF_MAX)
		return AP_BAD_ARGUMENT;
	holder = holder_of(acceptor);
	status = ap_accept_c_v3_accept(&holder, &moment, random, bytes_at(ap_req), ap_req_length, &numbers);
	memset(accepted, 0, size);
	memcpy(accepted, &numbers, LEAST_ACCEPTED);
	return left(acceptor, &holder, status);
}

int32_t ap_octets(struct ap_acceptor *acceptor, uint32_t part, void *to, size_t capacity, size_t *length)
{
	struct holder holder;
	uint8_t none;

	if (!is_acceptor(acceptor) || !are_bytes(to, capacity) || length == NULL)
		return AP_BAD_ARGUMENT;
	holder = holder_of(acceptor);
	return left(acceptor, &holder,
		    ap_accept_c_v3_octets(&holder, part, to == NULL ? &none : (uint8_t *)to, capacity, length));
}

int32_t ap_close(struct ap_acceptor *acceptor)
{
	struct holder holder;

	if (!is_acceptor(acceptor))
		return AP_BAD_ARGUMENT;
	holder = holder_of(acceptor);
	return left(acceptor, &holder, ap_accept_c_v3_close(&holder));
}

int32_t ap_set_service(struct ap_acceptor *acceptor, const char *name, size_t length)
{
	struct holder holder;

	if (!is_acceptor(acceptor) || !are_bytes(name, length))
		return AP_BAD_ARGUMENT;
	holder = holder_of(acceptor);
	return left(acceptor, &holder, ap_accept_c_v3_name(&holder, bytes_at(name), length));
}

int32_t ap_authorization(struct ap_acceptor *acceptor, uint32_t list, size_t index, int32_t *type, void *to,
			 size_t capacity, size_t *length)
{
	const struct place place = { list, index };
	struct found found = { 0, 0 };
	struct holder holder;
	uint8_t none;
	int32_t status;

	if (!is_acceptor(acceptor) || !are_bytes(to, capacity) || type == NULL || length == NULL)
		return AP_BAD_ARGUMENT;
	if (list != AP_OF_TICKET && list != AP_OF_AUTHENTICATOR)
		return AP_BAD_ARGUMENT;
	holder = holder_of(acceptor);
	status = ap_accept_c_v3_element(&holder, &place, to == NULL ? &none : (uint8_t *)to, capacity, &found);
	*type = found.number;
	*length = found.length;
	return left(acceptor, &holder, status);
}

int32_t ap_error(struct ap_acceptor *acceptor, void *to, size_t capacity, size_t *length)
{
	return ap_octets(acceptor, AP_KRB_ERROR, to, capacity, length);
}

/* A text's buffer: none if it is null, or longer than any can be. */
static size_t room_of(const char *to, size_t capacity)
{
	return to == NULL || capacity > PTRDIFF_MAX ? 0 : capacity;
}

size_t ap_rule(struct ap_acceptor *acceptor, char *to, size_t capacity)
{
	const size_t room = room_of(to, capacity);
	struct holder holder = { false, NULL };
	size_t length;
	uint8_t none;

	if (!is_acceptor(acceptor))
		return ap_accept_c_v3_rule(&holder, room == 0 ? &none : (uint8_t *)to, room);
	holder = holder_of(acceptor);
	length = ap_accept_c_v3_rule(&holder, room == 0 ? &none : (uint8_t *)to, room);
	left(acceptor, &holder, AP_DONE);
	return length;
}

size_t ap_text(struct ap_acceptor *acceptor, int32_t status, char *to, size_t capacity)
{
	const size_t room = room_of(to, capacity);
	struct holder holder = { false, NULL };
	size_t length;
	uint8_t none;

	if (!is_acceptor(acceptor))
		return ap_accept_c_v3_text(&holder, status, room == 0 ? &none : (uint8_t *)to, room);
	holder = holder_of(acceptor);
	length = ap_accept_c_v3_text(&holder, status, room == 0 ? &none : (uint8_t *)to, room);
	left(acceptor, &holder, AP_DONE);
	return length;
}

int32_t ap_verify_checksum(struct ap_acceptor *acceptor, const void *octets, size_t octets_length)
{
	struct holder holder;

	if (!is_acceptor(acceptor) || !are_bytes(octets, octets_length))
		return AP_BAD_ARGUMENT;
	holder = holder_of(acceptor);
	return left(acceptor, &holder, ap_accept_c_v3_check(&holder, bytes_at(octets), octets_length));
}

int32_t ap_shared_key(struct ap_acceptor *acceptor, struct ap_key *key)
{
	struct holder holder;

	if (!is_acceptor(acceptor) || key == NULL)
		return AP_BAD_ARGUMENT;
	holder = holder_of(acceptor);
	return left(acceptor, &holder, ap_accept_c_v3_key(&holder, key));
}

/* ---- what follows */

/* Whether these are a key, a text and a buffer with a place for its length. */
static bool are_judged(const struct ap_key *key, const void *text, size_t text_length, const void *to, size_t capacity,
		       const size_t *length)
{
	return key != NULL && are_bytes(text, text_length) && are_bytes(to, capacity) && length != NULL;
}

int32_t ap_seal(const struct ap_key *key, uint32_t usage, const uint8_t *random, const void *text, size_t text_length,
		void *to, size_t capacity, size_t *length)
{
	struct sealing sealing = { usage, { 0 } };
	uint8_t none;

	if (!are_judged(key, text, text_length, to, capacity, length) || random == NULL)
		return AP_BAD_ARGUMENT;
	memcpy(sealing.random, random, sizeof sealing.random);
	return ap_accept_c_v3_seal(key, &sealing, bytes_at(text), text_length, to == NULL ? &none : (uint8_t *)to, capacity,
				   length);
}

int32_t ap_unseal(const struct ap_key *key, uint32_t usage, const void *sealed, size_t sealed_length, void *to,
		  size_t capacity, size_t *length)
{
	uint8_t none;

	if (!are_judged(key, sealed, sealed_length, to, capacity, length))
		return AP_BAD_ARGUMENT;
	return ap_accept_c_v3_unseal(key, usage, bytes_at(sealed), sealed_length, to == NULL ? &none : (uint8_t *)to,
				     capacity, length);
}

int32_t ap_checksum(const struct ap_key *key, uint32_t usage, const void *text, size_t text_length, void *to,
		    size_t capacity, size_t *length)
{
	uint8_t none;

	if (!are_judged(key, text, text_length, to, capacity, length))
		return AP_BAD_ARGUMENT;
	return ap_accept_c_v3_checksum(key, usage, bytes_at(text), text_length, to == NULL ? &none : (uint8_t *)to,
				       capacity, length);
}

int32_t ap_verify(const struct ap_key *key, uint32_t usage, const void *text, size_t text_length,
		  const void *checksum, size_t checksum_length)
{
	if (key == NULL || !are_bytes(text, text_length) || !are_bytes(checksum, checksum_length))
		return AP_BAD_ARGUMENT;
	return ap_accept_c_v3_verify(key, usage, bytes_at(text), text_length, bytes_at(checksum), checksum_length);
}

uint32_t ap_version(void)
{
	return ap_accept_c_v3_version();
}

size_t ap_size(void)
{
	return sizeof(struct ap_acceptor);
}
