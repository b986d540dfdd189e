/*
 * dnr: a content blocking engine that answers as Chrome's declarativeNetRequest does.
 *
 * An engine lives in a seat: a dnr_engine, which is memory of yours. All zero bytes are a closed seat; dnr_open and
 * dnr_share open one, dnr_close closes it, and every other call leaves it as it was, but for what the call is for. Each
 * call answers by a code, whatever it is given; nothing is printed, no file is read, no lock is taken, nothing waits.
 *
 * What you must uphold. Nothing checks it, and what is proved of the engine rests on it:
 *
 *  - A seat is all zero bytes, or as the last call left it. Nothing but these functions writes its fields. It may be moved
 *    in memory, and is never copied: two copies are one engine. An open seat is ended by dnr_close; where its memory is
 *    overwritten or let go before, the engine's own memory is lost.
 *  - One call at a time has a seat. Calls on other seats may run meanwhile, also those that dnr_share made.
 *  - Between threads a seat goes over by a lock, by the start or the end of a thread, or by an atomic that is sequentially
 *    consistent.
 *  - A pointer is not null, also where its length is 0. What is passed to a call stays as it is until the call returns; it
 *    lies apart from seats, and what is written (out, length, the seats) lies apart from all else that is passed. Nothing
 *    that is passed is kept: it may be let go when the call has returned.
 *  - malloc, realloc and free are of one allocator, and align as C says. No call comes from a signal handler, or from the
 *    forked child of a process that has threads. A thread that calls has a stack of 1 MB at least.
 */
#ifndef DNR_H
#define DNR_H

#include <stdbool.h>
#include <stddef.h>
#include <stdint.h>

#ifdef __cplusplus
extern "C" {
#endif

/* A seat for one engine. Its fields are not for you. */
typedef struct dnr_engine {
    void *at;
    bool is_open;
} dnr_engine;

/* A text in UTF-8. No zero byte ends it. */
typedef struct dnr_text {
    const uint8_t *bytes;
    size_t length;
} dnr_text;

/* A file in memory: the name by which words and manifests name it, and all its bytes. */
typedef struct dnr_file {
    const uint8_t *name;
    size_t name_length;
    const uint8_t *bytes;
    size_t length;
} dnr_file;

/* What a call answers. After any code but DNR_DONE nothing has happened, unless it says otherwise. */
enum dnr_code {
    DNR_DONE = 0,      /* it is done */
    DNR_NO_MEMORY = 1, /* memory ran out */
    DNR_CLOSED = 2,    /* the seat is closed */
    DNR_OPEN = 3,      /* the seat that is to be opened is open already */
    DNR_NO_ROOM = 4,   /* the answer takes more bytes than there is room for */
    DNR_USAGE = 5,     /* the words are not those of `serve` or of `match` */
    DNR_REFUSED = 6,   /* a file or an extension is refused, and a line says why */
    DNR_NO_FILE = 7,   /* the suffix list, a filter list or the rules file is not among the files */
    DNR_TOO_LONG = 8,  /* a file has more bytes than it may have */
    DNR_NO_TEXT = 9,   /* a word or the name of a file is not UTF-8 */
    DNR_HOST_FAULT = 10, /* the pattern of a rule could not be tested, since it is too large */

    /* A part of a request is at fault, the first in the order of their numbers: it is no text, no URL that is decided, or
     * beyond what it may be. */
    DNR_BAD_REQUEST = 11, /* another part; no call answers it today */
    DNR_BAD_URL = 12,
    DNR_BAD_TYPE = 13,
    DNR_BAD_INITIATOR = 14,
    DNR_BAD_METHOD = 15,
    DNR_BAD_TAB = 16,
    DNR_BAD_FRAMES = 17,
    DNR_BAD_REQUEST_HEADERS = 18,
    DNR_BAD_RESPONSE_HEADERS = 19
};

/* What a request is for, as Chrome's ResourceType. */
enum dnr_type {
    DNR_MAIN_FRAME = 0,
    DNR_SUB_FRAME = 1,
    DNR_STYLESHEET = 2,
    DNR_SCRIPT = 3,
    DNR_IMAGE = 4,
    DNR_FONT = 5,
    DNR_OBJECT = 6,
    DNR_XMLHTTPREQUEST = 7,
    DNR_PING = 8,
    DNR_CSP_REPORT = 9,
    DNR_MEDIA = 10,
    DNR_WEBSOCKET = 11,
    DNR_WEBTRANSPORT = 12,
    DNR_WEBBUNDLE = 13,
    DNR_OTHER = 14
};

/* How it is asked for, as Chrome's RequestMethod. */
enum dnr_method {
    DNR_CONNECT = 0,
    DNR_DELETE = 1,
    DNR_GET = 2,
    DNR_HEAD = 3,
    DNR_OPTIONS = 4,
    DNR_PATCH = 5,
    DNR_POST = 6,
    DNR_PUT = 7,
    DNR_OTHER_METHOD = 8
};

/* What becomes of it. */
enum dnr_outcome {
    DNR_NONE = 0,     /* no rule decides it: it goes on */
    DNR_BLOCK = 1,    /* it is cancelled */
    DNR_REDIRECT = 2, /* it is sent to the target */
    DNR_UPGRADE = 3,  /* it is sent to the target, which is the same URL under https */
    DNR_ALLOW = 4     /* it goes on */
};

enum dnr_direction { DNR_REQUEST = 0, DNR_RESPONSE = 1 };

/* What is done to a header. */
enum dnr_operation {
    DNR_APPEND = 0, /* the value is added behind the header's values */
    DNR_SET = 1,    /* the value is put in place of all of them */
    DNR_REMOVE = 2  /* the header is taken away; there is no value */
};

/* A frame in which a request is asked for. What it has not got says so, and then its text is not read. */
typedef struct dnr_frame {
    const uint8_t *url; /* of its document */
    size_t url_length;
    const uint8_t *initiator; /* the URL or the origin of the page that asked for the document */
    size_t initiator_length;
    uint32_t method; /* enum dnr_method */
    bool has_url;
    bool has_initiator;
} dnr_frame;

/* A header: its name in letters of any case, and its value. */
typedef struct dnr_header {
    const uint8_t *name;
    size_t name_length;
    const uint8_t *value;
    size_t value_length;
} dnr_header;

/* A request. What it has not got says so, and then it is not read. All texts are UTF-8. */
typedef struct dnr_request {
    const uint8_t *url;
    size_t url_length;
    const uint8_t *initiator; /* the URL or the origin of the page that asks, or `null` */
    size_t initiator_length;
    const dnr_frame *frames; /* the outermost first; 64 at most */
    size_t frame_count;
    const dnr_header *request_headers; /* 512 at most */
    size_t request_header_count;
    const dnr_header *response_headers; /* 512 at most */
    size_t response_header_count;
    uint32_t type;   /* enum dnr_type */
    uint32_t method; /* enum dnr_method */
    uint32_t tab;    /* 2147483647 at most */
    bool has_initiator;
    bool has_tab;
    bool has_request_headers;
    bool has_response_headers;
} dnr_request;

/* A text among those of a verdict: `length` bytes of `out`, from the place `from` on. */
typedef struct dnr_span {
    size_t from;
    size_t length;
} dnr_span;

/* A rule by where it stands. */
typedef struct dnr_rule {
    dnr_span extension; /* its name, or that of the list; `local` for a rules file */
    dnr_span ruleset;   /* the ruleset's id in the extension; `_dynamic` and `_session` for rules that updates added */
    uint32_t id;        /* the rule's id in the ruleset */
} dnr_rule;

/* A header change that takes effect. */
typedef struct dnr_change {
    dnr_span name;  /* in lower case */
    dnr_span value; /* where has_value */
    dnr_rule rule;  /* the rule that asks for it */
    uint32_t direction; /* enum dnr_direction */
    uint32_t operation; /* enum dnr_operation */
    bool has_value;
} dnr_change;

/* What becomes of a request. It is all zero bytes before it is passed, or as a call left it; so is each dnr_change. */
typedef struct dnr_verdict {
    dnr_rule rule;   /* the rule that decides, where has_rule */
    dnr_span target; /* the URL that the request is sent to, where has_target */
    size_t bytes;    /* how many bytes of `out` the texts take */
    size_t changes;  /* how many header changes take effect, those of the request first */
    uint32_t outcome; /* enum dnr_outcome */
    uint32_t generation; /* how many updates the engine had accepted */
    bool has_rule;
    bool has_target;
} dnr_verdict;

/*
 * Opens a closed seat. The words are those that follow the name of the program `dnr`, of
 *
 *     serve [--workers N] [--psl F] [--ext NAME].. [--list NAME=F].. SCRIPT
 *     match RULES REQUESTS
 *
 * where F, RULES and the files of an extension NAME (NAME/manifest.json, and those that it names) are among the files that
 * are passed. SCRIPT and REQUESTS are not read: the engine is as the program is before the first line of them. N says
 * nothing here. A file of an extension that is not there is read as one without bytes. Of files of one name the first counts.
 *
 * DNR_DONE, DNR_OPEN, DNR_NO_TEXT, DNR_USAGE, DNR_NO_FILE, DNR_TOO_LONG, DNR_NO_MEMORY, or DNR_REFUSED: then *length is the
 * length of the line that says what is refused and why, as the program prints it, and where that is at most `room` the line
 * stands at the front of `out`. With any other code *length is 0.
 */
uint32_t dnr_open(const dnr_text *words, size_t word_count, const dnr_file *files, size_t file_count,
                  dnr_engine *engine, uint8_t *out, size_t room, size_t *length);

/*
 * Asks an open seat a line of a script, without the LF at its end: a request, `explain`, `sync`, or an update, as JSON.
 * The answer is the line that `serve` prints for it, with its LF, byte for byte; a blank line has an answer of length 0.
 * `number` is the line's number, which the answer names: count your lines from 1, or give any number that you know them by.
 * An update that is accepted is applied, whole; with any other answer the state stays as it was.
 *
 * DNR_DONE: the answer stands at the front of `out`, and *length is its length. DNR_NO_ROOM: *length is the length of the
 * answer, which is more than `room`; nothing was applied, and the line may be asked again. DNR_CLOSED, DNR_NO_MEMORY:
 * *length is 0.
 */
uint32_t dnr_ask(dnr_engine *engine, uint32_t number, const uint8_t *line, size_t line_length,
                 uint8_t *out, size_t room, size_t *length);

/*
 * Decides a request that is given by its parts, without any JSON: what becomes of it by all rules in force. It is what
 * dnr_ask answers to the same request as a line. The state of the engine stays in any case.
 *
 * DNR_DONE: *verdict says what becomes of it; the texts that it names stand in `out`, and the first verdict->changes of
 * `changes` are the header changes. DNR_NO_ROOM: verdict->bytes and verdict->changes say how many of both it takes; nothing
 * else in *verdict counts, and `out` and `changes` are as they were. With any other code the three hold nothing new:
 * DNR_CLOSED, DNR_NO_MEMORY, DNR_HOST_FAULT (dnr_ask names the rule), DNR_BAD_URL and those that follow it (dnr_ask says
 * why).
 */
uint32_t dnr_decide(dnr_engine *engine, const dnr_request *request, dnr_verdict *verdict,
                    dnr_change *changes, size_t most, uint8_t *out, size_t room);

/*
 * Opens the closed seat `other` with a second engine, which goes on from the state of `engine` as it stands, for another
 * thread. What is installed is shared, so this takes little time and memory; what it takes beside that is its own. What
 * either is asked later says nothing of the other: an update is seen by the seat that was asked alone. To hand one on,
 * share anew.
 *
 * DNR_DONE, DNR_CLOSED, DNR_OPEN (of `other`), DNR_NO_MEMORY.
 */
uint32_t dnr_share(dnr_engine *engine, dnr_engine *other);

/* Ends the engine of a seat and lets its memory go. The seat is closed, and may be opened again. DNR_DONE, DNR_CLOSED. */
uint32_t dnr_close(dnr_engine *engine);

#ifdef __cplusplus
}
#endif

#endif
