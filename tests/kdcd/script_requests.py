"""Requests of a script, with replies from a model of the exchanges that shares no code with this repository."""

from harness.tests import test
from harness.wire import REALM
from kdcd.scripts import OPEN, UP_FROM_64, ZEROS, ask, check, key, opening, up_from

# An AS-REQ of `u` in `A.B` for `krbtgt/A.B`, with till zero, nonce 1 and encryption type 18; and the KRB-ERROR of
# 2024-01-01 00:00:00 with code 6.
BASIC = bytes.fromhex(
    "6a693067a103020105a20302010aa45b3059a00703050000000000a10e300ca003020101a10530031b0175a2051b03412e42a3183016"
    "a003020102a10f300d1b066b72627467741b03412e42a511180f31393730303130313030303030305aa703020101a8053003020112")
CLIENT_UNKNOWN = (
    "reply 7e4a3048a003020105a10302011ea411180f32303234303130313030303030305aa503020100a603020106a9051b03412e42aa"
    "183016a003020102a10f300d1b066b72627467741b03412e42")
# The same error with code 7 and with code 52.
SERVICE_UNKNOWN = CLIENT_UNKNOWN.replace("a603020106", "a603020107")
TOO_BIG = CLIENT_UNKNOWN.replace("a603020106", "a603020134")
# Code 25, with METHOD-DATA for `u` and encryption type 18.
PREAUTH_REQUIRED = (
    "reply 7e773075a003020105a10302011ea411180f32303234303130313030303030305aa503020100a603020119a9051b03412e42aa"
    "183016a003020102a10f300d1b066b72627467741b03412e42ac2b04293027301aa103020113a2130411300f300da003020112a1061b"
    "04412e42753009a103020102a2020400")
# The request with its first length in two bytes, and followed by a byte; without its cname, and without its sname.
LONG_FORM, LONGER = bytes([0x6A, 0x81]) + BASIC[1:], BASIC + b"\0"
NO_CLIENT = bytes.fromhex(
    "6a593057a103020105a20302010aa44b3049a00703050000000000a2051b03412e42a3183016a003020102a10f300d1b066b72627467"
    "741b03412e42a511180f31393730303130313030303030305aa703020101a8053003020112")
NO_SERVICE = bytes.fromhex(
    "6a4f304da103020105a20302010aa441303fa00703050000000000a10e300ca003020101a10530031b0175a2051b03412e42a511180f"
    "31393730303130313030303030305aa703020101a8053003020112")
# The request for a service with name-type -3 and no components; and the KRB-ERROR with 999999 microseconds and code 7
# for it.
STRANGE_SERVICE = bytes.fromhex(
    "6a5c305aa103020105a20302010aa44e304ca00703050000000000a10e300ca003020101a10530031b0175a2051b03412e42a30b3009"
    "a0030201fda1023000a511180f31393730303130313030303030305aa703020101a8053003020112")
STRANGE_SERVICE_UNKNOWN = (
    "reply 7e3f303da003020105a10302011ea411180f32303234303130313030303030305aa50502030f423fa603020107a9051b03412e"
    "42aa0b3009a0030201fda1023000")
# The AS-REP to the request. The keys of `u` and of `krbtgt/A.B` are 32 zeros, and the random bytes are 0 to 63.
TICKET = (
    "reply 6b82022a30820226a003020105a10302010ba21e301c301aa103020113a2130411300f300da003020112a1061b04412e4275a3"
    "051b03412e42a40e300ca003020101a10530031b0175a581f76181f43081f1a003020105a1051b03412e42a2183016a003020102a10f"
    "300d1b066b72627467741b03412e42a381c83081c5a003020112a103020101a281b80481b5d9b75292c61ec4840b7f27e65376503c25"
    "f01ed8011dfa62d2cde0622dba3c7f3265938c5931da14a6b5272fd76b685afb28d59cb5280a14e20687a8a529f99793a0c873959a64"
    "993523d75c241ca601b52192ceedba47ec2e9e30be9b526a0b47e856e9ca58bc033aaf1b47f382c51435b71c8ab67519cab609de30f4"
    "e3ed00dfa3df5864cedd9475d1e8d1f3d52fd51eccfe276563f2ddbc19b8cc9701cd9d36ddd5dc58ad28542d179e5261cf370d6fc234"
    "d835a681e83081e5a003020112a103020101a281d80481d5ad51c5c98c71eed310bd86fd6b1316269b70eb0539702eab6d604f730b7b"
    "52403ebbdd337c5512cee5c3cf7813a608ed4b373f4f0efbe0118ecbabcdf66760c6a513561177ae30ed5f9f39f42be4f67dda9449bd"
    "cb73e780fd1dc49d8a50c829ab34630cd294895c9db736f7431c55bd187bad5d83807a6ccf46952befc68a9e658b8a2076453834d0be"
    "c88c41b7f076924ede04e7b57f273cf3c880baa95d4997b7f18085befac00293589b7c249c090a31a43df2ee67c5e2670e83814a31b9"
    "a6455d2a6b168da080206f8c9fdd6967b900f9e18e")
# A TGS-REQ of `u` for `h`, whose ticket is encrypted under the key of the bytes 128 to 159; and the TGS-REP to it. The
# key of `h` is the bytes 160 to 191, and the random bytes are 64 to 127.
TGS_REQ = bytes.fromhex(
    "6c8201f9308201f5a103020105a20302010ca38201a4308201a03082019ca103020101a28201930482018f6e82018b30820187a00302"
    "0105a10302010ea20703050000000000a381f76181f43081f1a003020105a1051b03412e42a2183016a003020102a10f300d1b066b72"
    "627467741b03412e42a381c83081c5a003020112a103020101a281b80481b50c22a315b27e01abc7ce272e018afa3f646b7ff6a67efd"
    "102bd7cd58cccfb61c40ecad4b4b0cfa53221a98f669ef111529c23a4945cb595670f7bea3e05922c98c3c635cced4f04c36841e94a2"
    "fe24206d8e39e2f7e007841aecc773568257d9fefcd66d1e801bd95badcc572457a0f86e4a34f0fded74d00e5d5eda009a9bfe3ff360"
    "99e34fd30178d36e3b8ae17450316ea0369511dcea71cc908d0b0aa9876b1512e96c795f06d1c574c7320b9cc2f42e7a6cb3a4783076"
    "a003020112a26f046d27eaf4a46e358fe3985a88a12611bd08cf3d9923092ec67a8c388f34e02a22eb48946e30f1043412940dc5dd69"
    "7c1489a918c37099e510a0b50c287d4dbfe494965e77447d3f2a440f87784783b1d0263c7b383bf27d98bd0908466ef9240d16aa48bc"
    "6e5105b5dca8fb23a4efa441303fa00703050000000000a2051b03412e42a30e300ca003020101a10530031b0168a511180f31393730"
    "303130313030303030305aa703020101a8053003020112")
TGS_REP = (
    "reply 6d8201f1308201eda003020105a10302010da3051b03412e42a40e300ca003020101a10530031b0175a581ed6181ea3081e7a0"
    "03020105a1051b03412e42a20e300ca003020101a10530031b0168a381c83081c5a003020112a103020101a281b80481b5666a5e762c"
    "38b2899c6bfab2d530b6ae2120eb07d169f4252e140d57b54be74953ad1171976f313ecadecb89da95aee7fa042231a9ecbdac63bb3a"
    "ce61c237143ff01d7940117718d06c28e13161b37f7ffcd8eb6b5f1a830ab0ca838329649e19f89b6a3675042d2329b93e30876c2f72"
    "87795650f4ea4af229bf0e23854237a6729935b8b3ad08c01eff88dcc329de23da7b46549df8b9bfc3620f1058cca5230c7f77382d6d"
    "1497508b0b1791a87d1cddd8ee8fa681d93081d6a003020112a281ce0481cb5048015f0cf86abc3356a8c76d5d3b4c7c203c506543c2"
    "4f2824388dd04ca4cf3379e19599e8d394a8af542ee7129e6f8dcf9aed46e110186d484e73d72003e2358e0a2b05d4ba025361a40d0f"
    "573b6323eaca33ae994904589d6c835aaef46c9bfbd6093f2c301f59769866f46169c1d79c1ee60e76f68393b2bb3634d37d41a78d8b"
    "3dda7ebd7d03f5d2ee0477a7d13630002b4d2806f9c3085cdc6962daed1666eea56b0d65ebf44471efa74a035e24420b3defb6e97139"
    "1dd265f851990d8fee43fe39041a1ab2ef56")
# The principals of the realms that the requests are sent to.
TGS = [(OPEN, "ok")]
USER = [*TGS, (f"add u {key(0)}", "ok")]
LENIENT_USER = [*USER, ("policy u preauth=false", "ok")]
SERVICE = [(opening(up_from(128)), "ok"), (f"add u {up_from(64)}", "ok"), (f"add h {up_from(160)}", "ok")]


def changed(place, octet):
    """The basic request with another byte at this place."""
    return BASIC[:place] + bytes([octet]) + BASIC[place + 1:]


def beginnings(octets):
    return [(ask(octets[:end]), "none") for end in range(len(octets))]


@test("kdcd", seconds=5)
def requests(trial):
    """Requests and their replies."""
    trial.enter("scripts")
    check(trial, "a request of an unknown client", [*TGS, (ask(BASIC), CLIENT_UNKNOWN)])
    nobody = [(ask(NO_CLIENT), CLIENT_UNKNOWN), (ask(NO_SERVICE), SERVICE_UNKNOWN)]
    check(trial, "requests without a client and without a service", [*USER, *nobody])
    strange = (ask(STRANGE_SERVICE, usec=999_999), STRANGE_SERVICE_UNKNOWN)
    check(trial, "an error has the service and the moment as they are", [*USER, strange])
    check(trial, f"{len(BASIC)} beginnings of an AS-REQ get no reply", [*TGS, *beginnings(BASIC)])
    check(trial, f"{len(TGS_REQ)} beginnings of a TGS-REQ get no reply", [*SERVICE, *beginnings(TGS_REQ)])
    check(trial, "nor do other messages", [*TGS, (ask(LONGER), "none"), (ask(LONG_FORM), "none")])
    # Version 4; the message type of a TGS-REQ; the tag of a TGS-REQ, whose message type is 12.
    others = [(ask(changed(8, 4)), "3"), (ask(changed(13, 12)), "40"), (ask(changed(0, 0x6C)), "40")]
    check(trial, "other versions and types of messages", [*TGS, *others])
    # Another realm; another instance of the service.
    unknown = [(ask(changed(49, ord("C"))), "6"), (ask(changed(75, ord("C"))), "7")]
    check(trial, "a client and a service that the database lacks", [*USER, *unknown])
    room = [(ask(BASIC, room=558), TICKET), (ask(BASIC, room=557), TOO_BIG)]
    check(trial, "a ticket is issued within the room for a reply", [*LENIENT_USER, *room])
    denied = [(f"policy krbtgt/{REALM} service=false", "ok"), (ask(BASIC), TICKET)]
    check(trial, "the ticket-granting service is a service, whatever its row says", [*LENIENT_USER, *denied])
    check(
        trial, "preauthentication is asked for", [*USER, (ask(BASIC), PREAUTH_REQUIRED), (ask(BASIC), PREAUTH_REQUIRED)]
    )
    spoilt = [(line, printed) for place, octet in enumerate(BASIC) for line, printed in (
        (ask(changed(place, octet ^ 1)), None), (ask(BASIC), TICKET))]
    check(trial, f"{len(BASIC)} changed requests change no later reply", [*LENIENT_USER, *spoilt])
    repeated = [(ask(TGS_REQ, random=UP_FROM_64), TGS_REP), (ask(TGS_REQ, random=ZEROS), TGS_REP)]
    check(trial, "a service ticket is issued, and the same request gets the same reply", [*SERVICE, *repeated])
