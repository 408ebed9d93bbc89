/*
 * Prints an AP-REQ by MIT's library: krb5_mk_req_extended over the credentials of a cache.
 *
 *     cc -o mk_req tests/services/mk_req.c -lkrb5            (Debian: libkrb5-dev)
 *     KRB5CCNAME=FILE:cache KRB5_KTNAME=FILE:keytab ./mk_req imap/h18@A.B [subkey] [mutual] [number] [checksum]
 *
 * The cache holds the service's ticket, or a TGT with which the library asks a KDC for it; the keytab holds the
 * service's key. The words ask for a subkey, for MUTUAL-REQUIRED, for a sequence number, and for a checksum of the text
 * 'checksum'.
 *
 * It prints a line for each of: the AP-REQ, the ticket's session key, the subkey if there is one, and what the library
 * itself reads from the AP-REQ with the keytab (krb5_rd_req): the second and the microsecond of the authenticator, the
 * sequence number and the checksum if there is one, and the client, flags and times of the ticket. Bytes are
 * hexadecimal digits, and an absent time is 0. With MUTUAL-REQUIRED it then reads a line with the digits of an AP-REP,
 * and says whether the library accepts that as the reply (krb5_rd_rep).
 */
#include <krb5.h>
#include <stdio.h>
#include <stdlib.h>
#include <string.h>

enum { LONGEST_REPLY = 4096 };

static krb5_context context;

static void check(krb5_error_code code, const char *what)
{
	if (code == 0)
		return;
	fprintf(stderr, "mk_req: %s: %s\n", what, krb5_get_error_message(context, code));
	exit(1);
}

static void print_octets(const char *word, const void *octets, size_t length)
{
	const unsigned char *octet = octets;

	printf("%s ", word);
	for (size_t i = 0; i < length; i++)
		printf("%02x", octet[i]);
	printf("\n");
}

static void print_key(const char *word, krb5_keyblock *key)
{
	printf("%s-type %d\n", word, key->enctype);
	print_octets(word, key->contents, key->length);
	krb5_free_keyblock(context, key);
}

/* The credentials of the cache's client for a service. */
static krb5_creds *credentials(const char *service)
{
	krb5_ccache cache;
	krb5_creds wanted, *found;

	memset(&wanted, 0, sizeof(wanted));
	check(krb5_cc_default(context, &cache), "the cache");
	check(krb5_cc_get_principal(context, cache, &wanted.client), "its client");
	check(krb5_parse_name(context, service, &wanted.server), service);
	check(krb5_get_credentials(context, 0, cache, &wanted, &found), service);
	krb5_free_cred_contents(context, &wanted);
	krb5_cc_close(context, cache);
	return found;
}

static void print_keys(krb5_auth_context exchange)
{
	krb5_keyblock *key;

	check(krb5_auth_con_getkey(context, exchange, &key), "the session key");
	print_key("session-key", key);
	check(krb5_auth_con_getsendsubkey(context, exchange, &key), "the subkey");
	if (key != NULL)
		print_key("subkey", key);
}

static void print_authenticator(krb5_auth_context service)
{
	krb5_authenticator *authenticator;
	krb5_checksum *sum;

	check(krb5_auth_con_getauthenticator(context, service, &authenticator), "the authenticator");
	printf("ctime %ld\n", (long)authenticator->ctime);
	printf("cusec %d\n", authenticator->cusec);
	if (authenticator->seq_number != 0)
		printf("number %u\n", (unsigned)authenticator->seq_number);
	sum = authenticator->checksum;
	if (sum != NULL) {
		printf("checksum-type %d\n", sum->checksum_type);
		print_octets("checksum", sum->contents, sum->length);
	}
	krb5_free_authenticator(context, authenticator);
}

static void print_ticket(const krb5_enc_tkt_part *part)
{
	char *client;

	check(krb5_unparse_name(context, part->client, &client), "the client");
	printf("client %s\n", client);
	printf("flags %08x\n", (unsigned)part->flags);
	printf("authtime %ld\n", (long)part->times.authtime);
	printf("starttime %ld\n", (long)part->times.starttime);
	printf("endtime %ld\n", (long)part->times.endtime);
	printf("renew-till %ld\n", (long)part->times.renew_till);
	krb5_free_unparsed_name(context, client);
}

/*
 * What the service's side of the library reads. Without KRB5_AUTH_CONTEXT_DO_TIME it keeps no replay cache in a file.
 */
static void print_read(const krb5_data *request)
{
	krb5_auth_context service;
	krb5_ticket *ticket;

	check(krb5_auth_con_init(context, &service), "the service");
	check(krb5_auth_con_setflags(context, service, 0), "its flags");
	check(krb5_rd_req(context, &service, request, NULL, NULL, NULL, &ticket), "the AP-REQ, read");
	print_authenticator(service);
	print_ticket(ticket->enc_part2);
	krb5_free_ticket(context, ticket);
	krb5_auth_con_free(context, service);
}

/* Checks whether a line of digits is the AP-REP to what was sent. */
static void take_reply(krb5_auth_context exchange)
{
	static char digits[2 * LONGEST_REPLY + 2];
	static char octets[LONGEST_REPLY];
	krb5_ap_rep_enc_part *part;
	krb5_data reply = { .data = octets };
	unsigned octet;

	if (fgets(digits, sizeof(digits), stdin) == NULL)
		return;
	while (sscanf(digits + 2 * reply.length, "%2x", &octet) == 1)
		octets[reply.length++] = (char)octet;
	check(krb5_rd_rep(context, exchange, &reply, &part), "the AP-REP");
	printf("the AP-REP is taken\n");
	krb5_free_ap_rep_enc_part(context, part);
}

int main(int count, char **words)
{
	krb5_auth_context exchange;
	krb5_creds *found;
	krb5_data request, text, *summed = NULL;
	krb5_flags options = 0;
	krb5_int32 flags;

	if (count < 2) {
		fprintf(stderr, "usage: mk_req SERVICE [subkey] [mutual] [number] [checksum]\n");
		return 2;
	}
	check(krb5_init_context(&context), "krb5.conf");
	check(krb5_auth_con_init(context, &exchange), "an exchange");
	check(krb5_auth_con_getflags(context, exchange, &flags), "its flags");
	flags &= ~KRB5_AUTH_CONTEXT_DO_SEQUENCE;
	for (int i = 2; i < count; i++) {
		if (strcmp(words[i], "subkey") == 0) {
			options |= AP_OPTS_USE_SUBKEY;
		} else if (strcmp(words[i], "mutual") == 0) {
			options |= AP_OPTS_MUTUAL_REQUIRED;
		} else if (strcmp(words[i], "number") == 0) {
			flags |= KRB5_AUTH_CONTEXT_DO_SEQUENCE;
		} else if (strcmp(words[i], "checksum") == 0) {
			text.data = words[i];
			text.length = strlen(words[i]);
			summed = &text;
		} else {
			fprintf(stderr, "mk_req: no word %s\n", words[i]);
			return 2;
		}
	}
	check(krb5_auth_con_setflags(context, exchange, flags), "its flags");
	found = credentials(words[1]);
	check(krb5_mk_req_extended(context, &exchange, options, summed, found, &request), "the AP-REQ");
	print_octets("ap-req", request.data, request.length);
	print_keys(exchange);
	print_read(&request);
	fflush(stdout);
	if (options & AP_OPTS_MUTUAL_REQUIRED)
		take_reply(exchange);
	krb5_free_data_contents(context, &request);
	krb5_free_creds(context, found);
	krb5_auth_con_free(context, exchange);
	krb5_free_context(context);
	return 0;
}
