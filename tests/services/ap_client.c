/*
 * A client of tests/services/ap_service.c over MIT's library.
 *
 *     cc -o ap_client tests/services/ap_client.c -lkrb5            (Debian: libkrb5-dev)
 *     KRB5CCNAME=FILE:cache ./ap_client PORT imap/h18@A.B [WORD ..]
 *
 * It sends an AP-REQ for the service to 127.0.0.1, by krb5_mk_req_extended, and prints the answer. If mutual
 * authentication is asked for, krb5_rd_rep checks the AP-REP. The cache holds the service's ticket, or a TGT with which
 * the library asks a KDC for it.
 *
 * The words: 'mutual' asks for mutual authentication, 'subkey', 'number' and 'checksum' for these; 'sendauth' speaks as
 * krb5_sendauth; 'repeat' sends the same bytes on a second connection; 'none' sends bytes that are not an AP-REQ; 'cut'
 * sends the AP-REQ without its last byte; 'old' uses the cache's ticket even after its end; 'skew=SECONDS' sets the
 * client's clock ahead.
 */
#include <arpa/inet.h>
#include <krb5.h>
#include <netinet/in.h>
#include <stdbool.h>
#include <stdio.h>
#include <stdlib.h>
#include <string.h>
#include <sys/socket.h>
#include <time.h>
#include <unistd.h>

enum { LONGEST_MESSAGE = 65536 };

static krb5_context context;
static int count;
static char **words;

static void check(krb5_error_code code, const char *what)
{
	if (code == 0)
		return;
	printf("%s: %s\n", what, krb5_get_error_message(context, code));
	exit(1);
}

static bool is_asked(const char *word)
{
	for (int i = 3; i < count; i++)
		if (strcmp(words[i], word) == 0)
			return true;
	return false;
}

static long number_of(const char *word)
{
	for (int i = 3; i < count; i++)
		if (strncmp(words[i], word, strlen(word)) == 0)
			return atol(words[i] + strlen(word));
	return 0;
}

static int connected(void)
{
	struct sockaddr_in address = { .sin_family = AF_INET, .sin_port = htons((unsigned short)atoi(words[1])) };
	int connection = socket(AF_INET, SOCK_STREAM, 0);

	address.sin_addr.s_addr = htonl(INADDR_LOOPBACK);
	if (connection < 0 || connect(connection, (struct sockaddr *)&address, sizeof(address)) != 0) {
		printf("no connection\n");
		exit(1);
	}
	return connection;
}

/*
 * A ticket from the cache, which may have ended. The library makes no AP-REQ from an ended ticket, so its credential
 * gets another end.
 */
static krb5_creds *old_credentials(krb5_ccache cache, krb5_creds *wanted)
{
	static krb5_creds found;

	check(krb5_cc_retrieve_cred(context, cache, 0, wanted, &found), words[2]);
	found.times.endtime = (krb5_timestamp)(time(NULL) + 3600);
	return &found;
}

static krb5_creds *credentials(krb5_ccache cache)
{
	krb5_creds wanted, *found;

	memset(&wanted, 0, sizeof(wanted));
	check(krb5_cc_get_principal(context, cache, &wanted.client), "the client of the cache");
	check(krb5_parse_name(context, words[2], &wanted.server), words[2]);
	if (is_asked("old"))
		return old_credentials(cache, &wanted);
	check(krb5_get_credentials(context, 0, cache, &wanted, &found), words[2]);
	krb5_free_cred_contents(context, &wanted);
	return found;
}

static krb5_flags options(void)
{
	return (is_asked("mutual") ? AP_OPTS_MUTUAL_REQUIRED : 0) | (is_asked("subkey") ? AP_OPTS_USE_SUBKEY : 0);
}

/* Sends the bytes and reads the answer. Returns its length, or -1 if the connection is closed. */
static long exchanged(const krb5_data *request, unsigned char *reply)
{
	int connection = connected();
	uint32_t length = htonl(request->length);
	long got = -1;

	if (write(connection, &length, 4) == 4 && write(connection, request->data, request->length) == (long)request->length &&
	    recv(connection, &length, 4, MSG_WAITALL) == 4 && ntohl(length) <= LONGEST_MESSAGE) {
		got = (long)ntohl(length);
		if (recv(connection, reply, (size_t)got, MSG_WAITALL) != got)
			got = -1;
	}
	close(connection);
	return got;
}

static void say(krb5_auth_context exchange, unsigned char *reply, long got)
{
	krb5_data octets = { .length = (unsigned int)got, .data = (char *)reply };
	krb5_ap_rep_enc_part *part;

	if (got < 0) {
		printf("closed\n");
	} else if (got == 0) {
		printf("taken, with no AP-REP\n");
	} else {
		krb5_error_code code = krb5_rd_rep(context, exchange, &octets, &part);
		if (code == 0)
			krb5_free_ap_rep_enc_part(context, part);
		printf("%s\n", code == 0 ? "taken, and the AP-REP is good" : krb5_get_error_message(context, code));
	}
}

/* Uses messages: the AP-REQ, and the AP-REP. */
static void send_plain(krb5_creds *ticket)
{
	static unsigned char reply[LONGEST_MESSAGE];
	krb5_auth_context exchange = NULL;
	krb5_data text = { .length = 8, .data = "checksum" }, request;

	check(krb5_auth_con_init(context, &exchange), "the context");
	check(krb5_auth_con_setflags(context, exchange, is_asked("number") ? KRB5_AUTH_CONTEXT_DO_SEQUENCE : 0), "the flags");
	krb5_data *checked = is_asked("checksum") ? &text : NULL;
	check(krb5_mk_req_extended(context, &exchange, options(), checked, ticket, &request), "the AP-REQ");
	if (is_asked("none"))
		request = (krb5_data){ .length = 5, .data = "hello" };
	if (is_asked("cut"))
		request.length--;
	say(exchange, reply, exchanged(&request, reply));
	if (is_asked("repeat"))
		say(exchange, reply, exchanged(&request, reply));
}

/* Prints the KRB-ERROR that the library read. */
static void print_error(const krb5_error *error)
{
	char *service = NULL;

	check(krb5_unparse_name(context, error->server, &service), "the service in the error");
	printf("refused by %s: %s\n", service,
	       krb5_get_error_message(context, (krb5_error_code)(ERROR_TABLE_BASE_krb5 + (long)error->error)));
	krb5_free_unparsed_name(context, service);
}

/* Uses krb5_sendauth. */
static void send_auth(krb5_creds *ticket)
{
	krb5_auth_context exchange = NULL;
	krb5_error *error = NULL;
	krb5_ap_rep_enc_part *part = NULL;
	int connection = connected();
	krb5_error_code code = krb5_sendauth(context, &exchange, &connection, "ap_client", NULL, NULL, options(), NULL,
		ticket, NULL, &error, &part, NULL);

	const char *taken = part != NULL ? "taken, and the AP-REP is good" : "taken, with no AP-REP";
	if (error != NULL)
		print_error(error);
	else
		printf("%s\n", code != 0 ? krb5_get_error_message(context, code) : taken);
	close(connection);
}

int main(int given, char **texts)
{
	krb5_ccache cache;
	krb5_creds *ticket;

	count = given;
	words = texts;
	if (count < 3) {
		printf("ap_client PORT SERVICE [WORD ..]\n");
		return 2;
	}
	check(krb5_init_context(&context), "the library");
	check(krb5_cc_default(context, &cache), "the cache");
	ticket = credentials(cache);
	printf("ticket of type %d: ", ticket->keyblock.enctype);
	fflush(stdout);
	if (number_of("skew=") != 0)
		check(krb5_set_real_time(context, (krb5_timestamp)(time(NULL) + number_of("skew=")), 0), "the clock");
	if (is_asked("sendauth"))
		send_auth(ticket);
	else
		send_plain(ticket);
	return 0;
}
