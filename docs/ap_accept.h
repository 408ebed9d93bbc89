/*
 * An acceptor of AP-REQ messages (RFC 4120, section 3.2.3), for services in C (C99 or later), in C++, and in languages
 * that call C.
 *
 * docs/SERVICES.md says what a service must do and how to build it ('In C'), and tests/services/ap_service.c is a whole
 * service.
 *
 *     struct ap_acceptor acceptor = AP_ACCEPTOR_INIT;
 *     status = ap_open(AP_VERSION, &acceptor, keytab, keytab_length, 1024, false, now, 0);
 *     ..
 *     status = ap_accept(&acceptor, now, microseconds, random, ap_req, ap_req_length, &accepted, sizeof accepted);
 *     if (status == AP_DONE)
 *             status = ap_octets(&acceptor, AP_CLIENT_NAME, name, sizeof name, &length);
 *     ..
 *     status = ap_replace_keytab(&acceptor, new_keytab, new_keytab_length);
 *     ..
 *     ap_close(&acceptor);
 *
 * Each call except ap_rule, ap_text, ap_version and ap_size returns a status: AP_DONE (0), a code of RFC 4120, section
 * 7.5.9 (above 0), or one of the enum below (below 0).
 *
 * Arguments. The library checks them, so a caller in another language has the same checks. Bytes are a pointer and a
 * length. A null pointer with the length 0 is an empty message, as an empty vector of C++ has it: what comes from a
 * peer is never the caller's fault. AP_BAD_ARGUMENT is: a null pointer with a length, a null pointer to anything else,
 * a length above PTRDIFF_MAX, a number out of its range, and an acceptor that is none (not initialized, or copied from
 * another place). The acceptor is then as it was: ap_octets returns what it returned before. And the call writes
 * nothing, except that ap_accept sets all of *accepted to zero if the time is out of its range, and that *length is set
 * to 0 if there is no such part, no such usage, or no encryption type with a key's number.
 *
 * Threads. The library has no lock, and no variable of its own. Threads may share an acceptor if they hold one lock
 * around ap_accept and the calls that copy what it accepted. The calls without an acceptor need no lock. Threads with
 * an acceptor each need none either, but share no replay cache: what one accepted can be replayed to another. So each
 * then needs a service name and a key of its own.
 *
 * No call can check the caller's part: that a pointer that is not null points to as much memory as the caller says,
 * that no two arguments of a call overlap, that nobody writes into a struct ap_acceptor, and that no two threads make a
 * call with one at a time.
 */
#ifndef AP_ACCEPT_H
#define AP_ACCEPT_H

#include <stdbool.h>
#include <stddef.h>
#include <stdint.h>

#ifdef __cplusplus
extern "C" {
#endif

/*
 * The version of this header, which a program hands to ap_open. It rises with each change of what a program that was
 * compiled before could not live with. Version 3 has other functions than version 2: a program that was compiled with
 * that header is not linked with this library.
 */
#define AP_VERSION 3

/* How a call ended, if no code of RFC 4120 says it. */
enum ap_status {
	AP_DONE = 0,
	AP_NOT_AN_AP_REQ = -1,  /* the bytes encode no AP-REQ */
	AP_NO_MEMORY = -2,      /* nothing is accepted or recorded: the same call may be made again */
	AP_BAD_ARGUMENT = -3,   /* the caller's fault; also an ap_open of an acceptor that is open */
	AP_TOO_SMALL = -4,      /* the buffer: the same bytes may be asked for again */
	AP_BAD_KEYTAB = -5,     /* the bytes are no keytab */
	AP_CLOSED = -6,         /* the acceptor is not open */
	AP_ABSENT = -7,         /* there is no such part of the last AP-REQ */
	AP_OTHER_VERSION = -8,  /* the library does not serve programs of this version */
	AP_BAD_SAVED = -9       /* the bytes are not those of a saved acceptor, or they are damaged */
};

/*
 * The codes of refusals (RFC 4120, section 7.5.9). Some rules share a code: ap_rule names the rule, and
 * docs/SERVICES.md says what usually causes each.
 */
enum ap_refusal {
	AP_ETYPE_NOSUPP = 14,
	AP_SVC_UNAVAILABLE = 29,
	AP_BAD_INTEGRITY = 31,
	AP_TKT_EXPIRED = 32,
	AP_TKT_NYV = 33,
	AP_REPEAT = 34,
	AP_NOT_US = 35,
	AP_BADMATCH = 36,
	AP_SKEW = 37,
	AP_BADADDR = 38,
	AP_BADVERSION = 39,
	AP_MSG_TYPE = 40,
	AP_MODIFIED = 41,    /* of a checksum alone */
	AP_BADKEYVER = 44,
	AP_NOKEY = 45,
	AP_INAPP_CKSUM = 50, /* of a checksum alone */
	AP_PATH_NOT_ACCEPTED = 51
};

/*
 * The services of a process: their keys, and the replay caches of each one's clients. Both pointers are the library's;
 * they are null before ap_open. An acceptor that is open stays where it is: a copy is AP_BAD_ARGUMENT.
 */
struct ap_acceptor {
	const void *self;
	void *held;
};

/* What an acceptor is initialized with. */
#define AP_ACCEPTOR_INIT { NULL, NULL }

/*
 * The numbers of an AP-REQ. Times are seconds since 1970-01-01T00:00:00Z. Those of the ticket's key are there also if
 * the AP-REQ is refused: anyone may have written them. All others are zero if nothing was accepted. A later header may
 * add numbers behind these.
 */
struct ap_accepted {
	int64_t authtime;
	int64_t starttime;  /* the authtime, if the ticket has no starttime */
	int64_t endtime;
	int64_t renew_till; /* the endtime, if the ticket has no renew-till */
	int64_t seq_number; /* -2147483648 to 4294967295; 0 without one */
	int64_t ticket_key_version; /* of the service's key that encrypts the ticket, in the same range; 0 without one */
	uint32_t flags;     /* bit 0 of RFC 4120 is the most significant: FORWARDABLE is 0x40000000 */
	int32_t session_key_type;
	int32_t subkey_type;   /* 0 if the client chose no subkey */
	int32_t checksum_type; /* 0 if there is no checksum */
	int32_t ticket_key_type; /* the encryption type of the service's key that encrypts the ticket */
	bool has_seq_number;
	bool has_checksum;
	bool has_ap_rep; /* the client asks the service to prove who it is */
	bool has_ticket_key_version;
};

/*
 * The parts of an AP-REQ that are bytes. Those of the service are there also if it is refused; anyone may have written
 * them then.
 *
 * A name is text: its components with '/' between them. Of the bytes 0x21 to 0x7e each stands for itself, except '/',
 * '\' and '@'. Those three and all other bytes are written as '\' and two lowercase hexadecimal digits, so the text is
 * printable and has no space. Each name of 1 to 16 components of 1 to 255 bytes has its own text: compare names by it.
 * krb5_unparse_name of MIT writes "\/", "\\", "\@", "\n", "\t", "\b", "\0" and leaves other bytes as they are.
 *
 * A realm is bytes as they were sent, which may be any: compare them, and escape them in a log.
 */
enum ap_part {
	AP_CLIENT_REALM = 1,
	AP_CLIENT_NAME = 2,
	AP_SESSION_KEY = 3, /* 16 or 32 */
	AP_SUBKEY = 4,      /* 16 or 32: the key that the client chose for later messages */
	AP_CHECKSUM = 5,    /* the authenticator's checksum, which the service checks */
	AP_AP_REP = 6,      /* the AP-REP: the service sends it to the client that asks for one (has_ap_rep) */
	AP_SERVICE_REALM = 7, /* of the service that the ticket is for */
	AP_SERVICE_NAME = 8,
	AP_KRB_ERROR = 9      /* of a refused AP-REQ: the KRB-ERROR, which the service may send (ap_error) */
};

/* A key: its encryption type, 17 to 20, and its bytes: 16 for the types 17 and 19, 32 for 18 and 20. */
struct ap_key {
	int32_t type;
	uint8_t octets[32];
};

/* The lists of authorization data (RFC 4120, section 5.2.6): of the ticket, and of the authenticator. */
enum ap_list {
	AP_OF_TICKET = 1,
	AP_OF_AUTHENTICATOR = 2
};

/*
 * Opens an acceptor with the keys of the bytes of a keytab, which are not needed any more after the call.
 *
 * version: AP_VERSION.
 * remembered: the size of each client's replay cache, 1 to 65536 authenticators.
 * is_first: the service never ran before, with keys that no service ever had. Otherwise authenticators from before the
 * time + 301 seconds are refused (AP_SKEW), since the replay caches are lost. ap_resume has them.
 * sec, usec: the time, in seconds since 1970 (0 to 253402300799) and microseconds (0 to 999999).
 *
 * AP_DONE, AP_BAD_KEYTAB, AP_NO_MEMORY, AP_OTHER_VERSION or AP_BAD_ARGUMENT.
 */
int32_t ap_open(uint32_t version, struct ap_acceptor *acceptor, const void *keytab, size_t keytab_length,
		uint32_t remembered, bool is_first, int64_t sec, uint32_t usec);

/*
 * Copies the bytes from which a later process resumes (ap_resume): what the replay caches hold, and no key. What is
 * accepted after it can be accepted again by that process: so call it last, and write a file that only the service can
 * read and write.
 *
 * to, capacity, length: as for ap_octets.
 *
 * AP_DONE, AP_TOO_SMALL (the buffer is as it was), AP_NO_MEMORY, AP_CLOSED or AP_BAD_ARGUMENT.
 */
int32_t ap_save(struct ap_acceptor *acceptor, void *to, size_t capacity, size_t *length);

/*
 * Opens an acceptor that goes on with what another saved: it refuses nobody for the restart, and accepts nothing that
 * the other accepted. Each saved bytes serve one process: remove their file before the first ap_accept. If the call
 * fails, call ap_open, with is_first false.
 *
 * version, keytab, keytab_length, remembered: as for ap_open; they may be others than before.
 *
 * AP_DONE, AP_BAD_SAVED, AP_BAD_KEYTAB, AP_NO_MEMORY, AP_OTHER_VERSION or AP_BAD_ARGUMENT.
 */
int32_t ap_resume(uint32_t version, struct ap_acceptor *acceptor, const void *keytab, size_t keytab_length,
		  uint32_t remembered, const void *saved, size_t saved_length);

/*
 * Replaces the keys of an open acceptor with those of the bytes of a keytab. The replay caches stay: no client is
 * refused for the change, and nothing that was accepted is accepted again. What ap_octets copies stays too. If the
 * bytes can't be read, the old keys stay.
 *
 * AP_DONE, AP_BAD_KEYTAB, AP_NO_MEMORY, AP_CLOSED or AP_BAD_ARGUMENT.
 */
int32_t ap_replace_keytab(struct ap_acceptor *acceptor, const void *keytab, size_t keytab_length);

/*
 * From now on ap_accept accepts tickets for one service alone; one for another service of the keytab is refused with
 * AP_NOT_US.
 *
 * name, length: the service's name as AP_SERVICE_NAME spells it, "host/www.example.com", in whichever realm of the
 * keytab; or nothing (length 0): each service of the keytab, as after ap_open and ap_resume.
 *
 * AP_DONE, AP_NO_MEMORY, AP_CLOSED or AP_BAD_ARGUMENT (the text is not that of a name).
 */
int32_t ap_set_service(struct ap_acceptor *acceptor, const char *name, size_t length);

/*
 * Accepts the bytes of an AP-REQ, or returns the code of the rule that refuses them.
 *
 * sec, usec: the time when they came in.
 * random: 16 random bytes, new in each call, for the AP-REP.
 * accepted: the numbers of the AP-REQ. ap_octets copies the bytes, until the next ap_accept.
 * size: sizeof *accepted. The library writes no byte behind it, and sets to zero what it does not know.
 *
 * AP_DONE, a code of enum ap_refusal, AP_NOT_AN_AP_REQ, AP_NO_MEMORY, AP_CLOSED or AP_BAD_ARGUMENT.
 */
int32_t ap_accept(struct ap_acceptor *acceptor, int64_t sec, uint32_t usec, const uint8_t *random, const void *ap_req,
		  size_t ap_req_length, struct ap_accepted *accepted, size_t size);

/*
 * Copies bytes of the last AP-REQ to a buffer, with no NUL after them. It may be called any number of times.
 *
 * part: which, of enum ap_part.
 * to, capacity: the buffer. to may be null if capacity is 0, to learn the length.
 * length: how many bytes there are, even if the buffer is too small for them; 0 without any.
 *
 * AP_DONE, AP_TOO_SMALL (the buffer is as it was), AP_ABSENT, AP_NO_MEMORY, AP_CLOSED or AP_BAD_ARGUMENT.
 */
int32_t ap_octets(struct ap_acceptor *acceptor, uint32_t part, void *to, size_t capacity, size_t *length);

/*
 * Copies an element of the authorization data of what was accepted last, which nothing here reads: the service decides
 * on it.
 *
 * list, index: which list, of enum ap_list, and how many of its elements are before this one.
 * type: the element's ad-type; 0 without such an element.
 * to, capacity, length: as for ap_octets, the element's ad-data.
 *
 * AP_DONE, AP_TOO_SMALL, AP_ABSENT (the list has no more), AP_CLOSED or AP_BAD_ARGUMENT.
 */
int32_t ap_authorization(struct ap_acceptor *acceptor, uint32_t list, size_t index, int32_t *type, void *to,
			 size_t capacity, size_t *length);

/*
 * Copies the KRB-ERROR (RFC 4120, section 5.9.1) for the AP-REQ that was refused last: the code, the ticket's service,
 * and the time that ap_accept was given. The service sends it in place of an AP-REP; krb5_sendauth then says why.
 *
 * to, capacity, length: as for ap_octets. 8192 bytes are enough for each.
 *
 * As ap_octets; AP_ABSENT also if the ticket's service can't be a principal: its name has more than 16 components, or
 * one of 0 or more than 255 bytes, or its realm has 0 or more than 255.
 */
int32_t ap_error(struct ap_acceptor *acceptor, void *to, size_t capacity, size_t *length);

/* Frees an acceptor and its replay caches. AP_DONE, AP_CLOSED or AP_BAD_ARGUMENT; it may be opened again. */
int32_t ap_close(struct ap_acceptor *acceptor);

/*
 * Writes the name of the rule that refused the last AP-REQ to a buffer, cut so that it ends with a NUL there, and
 * returns how long the whole name is: 0 if none was refused. docs/SERVICES.md lists the names. A buffer of 32 bytes is
 * long enough for each. If to is null, or capacity is 0 or above PTRDIFF_MAX, it writes nothing.
 */
size_t ap_rule(struct ap_acceptor *acceptor, char *to, size_t capacity);

/*
 * Writes a text for a status to a buffer, as ap_rule does: of the code with which the last AP-REQ was refused it is
 * what the rule found. A buffer of 256 bytes is long enough for each. acceptor may be null, or closed.
 */
size_t ap_text(struct ap_acceptor *acceptor, int32_t status, char *to, size_t capacity);

/*
 * Checks the authenticator's checksum, of what was accepted last, over these bytes, with the session key and the key
 * usage 10 (RFC 4120, section 7.5.1). GSS-API puts something else there (RFC 4121, section 4.1.1).
 *
 * AP_DONE, AP_MODIFIED (it is that of other bytes), AP_INAPP_CKSUM (of another type than the session key's), AP_ABSENT
 * (there is none), AP_CLOSED or AP_BAD_ARGUMENT.
 */
int32_t ap_verify_checksum(struct ap_acceptor *acceptor, const void *octets, size_t octets_length);

/*
 * Copies the key that the service shares with the client that it accepted last: the client's subkey, or the session key
 * if it chose none (RFC 4120, section 5.5.1). What both say from then on can be protected with it by the four calls
 * below. They take no acceptor, so they may be made on any thread, and for each client as long as it is served. The
 * session key or the subkey alone is made of a type of struct ap_accepted and what ap_octets copies.
 *
 * AP_DONE, AP_ABSENT (nothing was accepted), AP_CLOSED or AP_BAD_ARGUMENT.
 */
int32_t ap_shared_key(struct ap_acceptor *acceptor, struct ap_key *key);

/*
 * Seals bytes: encrypts them, and adds what shows any change, as the key's encryption type defines it (RFC 3961, 3962
 * and 8009). krb5_c_encrypt and krb5_c_decrypt of MIT are the counterparts of ap_seal and ap_unseal.
 *
 * usage: a number for what the bytes are, 1024 to 2047 (RFC 4120, section 7.5.1). A key has other keys within for each.
 * Take another number for each kind of message, and for each direction: else a message can be sent back, or in place of
 * another. These calls number no messages, and find none that is missing or repeated: the application does.
 * random: 16 random bytes, new in each call.
 * to, capacity, length: as for ap_octets; there are at most 40 bytes more than text has.
 *
 * AP_DONE, AP_TOO_SMALL, AP_NO_MEMORY or AP_BAD_ARGUMENT.
 */
int32_t ap_seal(const struct ap_key *key, uint32_t usage, const uint8_t *random, const void *text, size_t text_length,
		void *to, size_t capacity, size_t *length);

/*
 * Opens sealed bytes, and releases none before all are checked.
 *
 * to, capacity, length: as for ap_octets; there are fewer bytes than sealed has. length is 0 if nothing is opened.
 *
 * AP_DONE, AP_BAD_INTEGRITY (nothing was sealed to these bytes with this key and usage), AP_TOO_SMALL, AP_NO_MEMORY or
 * AP_BAD_ARGUMENT.
 */
int32_t ap_unseal(const struct ap_key *key, uint32_t usage, const void *sealed, size_t sealed_length, void *to,
		  size_t capacity, size_t *length);

/*
 * Copies the checksum of bytes, of the checksum type for the key's encryption type: 12, 16 or 24 bytes
 * (krb5_c_make_checksum of MIT).
 *
 * AP_DONE, AP_TOO_SMALL or AP_BAD_ARGUMENT.
 */
int32_t ap_checksum(const struct ap_key *key, uint32_t usage, const void *text, size_t text_length, void *to,
		    size_t capacity, size_t *length);

/*
 * Checks whether these bytes are the checksum of a text.
 *
 * AP_DONE, AP_MODIFIED (they are not) or AP_BAD_ARGUMENT.
 */
int32_t ap_verify(const struct ap_key *key, uint32_t usage, const void *text, size_t text_length,
		  const void *checksum, size_t checksum_length);

/* Returns the version of the library: the AP_VERSION of the header that it was built for. */
uint32_t ap_version(void);

/* Returns sizeof(struct ap_acceptor), for callers that cannot read this header. All bytes are zero before ap_open. */
size_t ap_size(void);

#ifdef __cplusplus
}
#endif

#endif
