/*
 * Keys of each encryption type: what ap_seal seals, MIT's krb5_c_decrypt opens, and the other way; checksums likewise.
 * Prints each call that returns something else than it should, and the number of these calls.
 *
 *     cc -g -fsanitize=address,undefined -I docs -o ap_sealed tests/services/ap_sealed.c \
 *         crates/ap_accept_c/out/libap_accept.a -lkrb5 -lk5crypto
 */
#include "ap_accept.h"

#include <krb5.h>
#include <stdio.h>
#include <stdlib.h>
#include <string.h>

enum { LONGEST = 70000, BEHIND = 64, UNWRITTEN = 0xa5 };

static const int32_t TYPES[] = { 17, 18, 19, 20 };
static const uint32_t USAGES[] = { 1024, 1025, 2047 };
static const size_t LENGTHS[] = { 0, 1, 15, 16, 17, 31, 32, 33, 1000, 65537 };

static krb5_context context;
static int failures;

/* The type and the length that are tried. */
static int32_t type_now;
static size_t length_now;

static void expect(const char *what, long got, long wanted)
{
	if (got == wanted)
		return;
	printf("%s, type %d, %zu octets: %ld, not %ld\n", what, type_now, length_now, got, wanted);
	failures++;
}

static void fill(void *to, size_t length)
{
	krb5_data data = { .length = (unsigned int)length, .data = to };

	if (length > 0 && krb5_c_random_make_octets(context, &data) != 0)
		abort();
}

static krb5_keyblock block_of(struct ap_key *key)
{
	krb5_keyblock block = { .enctype = key->type, .contents = key->octets };

	block.length = key->type == 17 || key->type == 19 ? 16 : 32;
	return block;
}

static krb5_data data_of(void *octets, size_t length)
{
	krb5_data data = { .length = (unsigned int)length, .data = octets };

	return data;
}

/* What we seal is opened by MIT's library. */
static void seals(struct ap_key *key, uint32_t usage, uint8_t *text, size_t length)
{
	static uint8_t sealed[LONGEST + BEHIND], opened[LONGEST + BEHIND];
	krb5_keyblock block = block_of(key);
	krb5_enc_data cipher = { .enctype = key->type };
	krb5_data plain = data_of(opened, sizeof opened);
	uint8_t random[16];
	size_t got = 0;

	fill(random, sizeof random);
	expect("sealed", ap_seal(key, usage, random, text, length, sealed, sizeof sealed, &got), AP_DONE);
	expect("as many more", got - length <= 40, 1);
	cipher.ciphertext = data_of(sealed, got);
	expect("MIT opens", krb5_c_decrypt(context, &block, (int32_t)usage, NULL, &cipher, &plain), 0);
	expect("the text's length", plain.length, (long)length);
	expect("the text", memcmp(opened, text, length), 0);
	expect("too small", ap_seal(key, usage, random, text, length, sealed, got - 1, &got), AP_TOO_SMALL);
	expect("its own", ap_unseal(key, usage, sealed, got, opened, sizeof opened, &got), AP_DONE);
	expect("its length", (long)got, (long)length);
}

/* What MIT's library seals is opened, unless an octet or the usage is another. */
static void unseals(struct ap_key *key, uint32_t usage, uint8_t *text, size_t length)
{
	static uint8_t sealed[LONGEST + BEHIND], opened[LONGEST + BEHIND];
	krb5_keyblock block = block_of(key);
	krb5_data plain = data_of(text, length);
	krb5_enc_data cipher = { .enctype = key->type, .ciphertext = { .length = sizeof sealed, .data = (char *)sealed } };
	size_t got = 7, size = 0;

	if (krb5_c_encrypt_length(context, key->type, length, &size) != 0 || size > sizeof sealed)
		abort();
	cipher.ciphertext.length = (unsigned int)size;
	expect("MIT seals", krb5_c_encrypt(context, &block, (int32_t)usage, NULL, &plain, &cipher), 0);
	memset(opened, UNWRITTEN, sizeof opened);
	expect("another usage", ap_unseal(key, usage ^ 2, sealed, size, opened, sizeof opened, &got), AP_BAD_INTEGRITY);
	expect("no octets", (long)got, 0);
	sealed[size / 2] ^= 1;
	expect("changed", ap_unseal(key, usage, sealed, size, opened, sizeof opened, &got), AP_BAD_INTEGRITY);
	expect("nothing written", opened[0], UNWRITTEN);
	sealed[size / 2] ^= 1;
	expect("cut", ap_unseal(key, usage, sealed, size - 1, opened, sizeof opened, &got), AP_BAD_INTEGRITY);
	expect("opened", ap_unseal(key, usage, sealed, size, opened, sizeof opened, &got), AP_DONE);
	expect("its length", (long)got, (long)length);
	expect("its text", memcmp(opened, text, length), 0);
}

static void checks(struct ap_key *key, uint32_t usage, uint8_t *text, size_t length)
{
	static const int32_t types[] = { 15, 16, 19, 20 };
	static const size_t sizes[] = { 12, 12, 16, 24 };
	krb5_keyblock block = block_of(key);
	krb5_data plain = data_of(text, length);
	uint8_t made[BEHIND];
	krb5_checksum own = { .checksum_type = types[key->type - 17], .contents = made }, theirs = { 0 };
	krb5_boolean valid = 0;
	size_t got = 0;

	expect("checksum", ap_checksum(key, usage, text, length, made, sizeof made, &got), AP_DONE);
	expect("its length", (long)got, (long)sizes[key->type - 17]);
	own.length = (unsigned int)got;
	expect("MIT checks", krb5_c_verify_checksum(context, &block, (int32_t)usage, &plain, &own, &valid), 0);
	expect("MIT's answer", valid, 1);
	expect("MIT makes", krb5_c_make_checksum(context, 0, &block, (int32_t)usage, &plain, &theirs), 0);
	expect("verified", ap_verify(key, usage, text, length, theirs.contents, theirs.length), AP_DONE);
	expect("cut", ap_verify(key, usage, text, length, theirs.contents, theirs.length - 1), AP_MODIFIED);
	expect("another usage", ap_verify(key, usage ^ 2, text, length, theirs.contents, theirs.length), AP_MODIFIED);
	theirs.contents[0] ^= 1;
	expect("changed", ap_verify(key, usage, text, length, theirs.contents, theirs.length), AP_MODIFIED);
	krb5_free_checksum_contents(context, &theirs);
}

/* Bad arguments are the caller's fault, and write nothing but the length. */
static void refuses(const struct ap_key *key, uint32_t usage, const char *what)
{
	static const uint8_t random[16];
	uint8_t to[BEHIND] = { UNWRITTEN };
	size_t got = 7;

	expect(what, ap_seal(key, usage, random, "text", 4, to, sizeof to, &got), AP_BAD_ARGUMENT);
	expect(what, ap_unseal(key, usage, "text", 4, to, sizeof to, &got), AP_BAD_ARGUMENT);
	expect(what, ap_checksum(key, usage, "text", 4, to, sizeof to, &got), AP_BAD_ARGUMENT);
	expect(what, ap_verify(key, usage, "text", 4, to, 1), AP_BAD_ARGUMENT);
	expect("nothing written", to[0], UNWRITTEN);
}

int main(void)
{
	static const uint32_t no_usages[] = { 0, 11, 1023, 2048, UINT32_MAX };
	static const int32_t no_types[] = { 0, 16, 21, 23, -17, INT32_MAX };
	static uint8_t text[LONGEST];
	struct ap_key key;

	if (krb5_init_context(&context) != 0)
		return 1;
	for (size_t t = 0; t < sizeof TYPES / sizeof *TYPES; t++) {
		type_now = key.type = TYPES[t];
		fill(key.octets, sizeof key.octets);
		for (size_t u = 0; u < sizeof USAGES / sizeof *USAGES; u++)
			for (size_t l = 0; l < sizeof LENGTHS / sizeof *LENGTHS; l++) {
				length_now = LENGTHS[l];
				fill(text, LENGTHS[l]);
				seals(&key, USAGES[u], text, LENGTHS[l]);
				unseals(&key, USAGES[u], text, LENGTHS[l]);
				checks(&key, USAGES[u], text, LENGTHS[l]);
			}
		for (size_t u = 0; u < sizeof no_usages / sizeof *no_usages; u++)
			refuses(&key, no_usages[u], "no usage");
	}
	for (size_t t = 0; t < sizeof no_types / sizeof *no_types; t++) {
		type_now = key.type = no_types[t];
		refuses(&key, 1024, "no type");
	}
	krb5_free_context(context);
	printf("%d failed\n", failures);
	return failures != 0;
}
