/* The line to a receipt printer: what is sent, what has been acknowledged, and what the printer says of itself. The
   bytes of orders and the meaning of replies are the library's. */
#include "kij_hardware.h"
#include <errno.h>
#include <stdio.h>
#include <stdlib.h>
#include <string.h>
#include <unistd.h>

/* What is sent while no order is out. Zero bytes do nothing, and end a command that an earlier connection has begun. */
static const char started[] = "\0\0\0\0\0\0\0\0\0\0\0\0\x1b@\x1d"
                              "a\xff";
static const char asked_started[] = "\0\0\0\0\0\0\0\0\0\0\0\0\x1b@\x1d"
                                    "a\0";
static const size_t start_size = sizeof started - 1, refresh_size = 3;

enum {
    /* What asks for the paper in order (GS r 1) in place of a job's number, and how many numbers there are. */
    PAPER_IN_ORDER = 65536,
    NUMBERS = 65536,
    /* How many bytes ask for an acknowledgement: GS ( H, or GS r. */
    JOB_SIZE = 11,
    QUESTION_SIZE = 3,
    /* How many bytes an automatic status has; and the bit of the answer to DLE EOT 2 by which printing has stopped at
       the end of the paper. */
    STATUS_SIZE = 4,
    HAS_ENDED = 0x20,
    /* What the library has to know was asked: DLE EOT 1, and GS r 1. */
    ASKED_NOW = 1,
    ASKED_PAPER = 5,
    /* How much goes out at once, and how much is unacknowledged at most in a line that holds bytes back: a question
       waits behind it. */
    ENOUGH = 2048,
    ENOUGH_HELD = 512
};

/* How long a lost port may take to open while other devices wait, how often a printer is asked, how long its late
   answers may be apart however short the timeout is, how long a printer whose line holds bytes back may be silent, and
   how long after it has stopped, or acknowledged something, it may still acknowledge what was before that, in
   milliseconds. */
static const int64_t quickly = 20, often = 100, apart = 500, silence = 2000, shortly = 1000;

static inline int64_t least(int64_t one, int64_t other) { return one < other ? one : other; }

static inline int64_t greatest(int64_t one, int64_t other) { return one > other ? one : other; }

bool kij_internal_link_is_online(const kij_link *link) {
    return kij_internal_port_is_open(&link->port) && link->is_there;
}

/* Whether the printer has said last that it prints nothing now. */
static bool is_offline(const kij_link *link) { return link->told_count > 0 && link->signs.is_offline; }

/* Whether it has also said why. Nothing says that its paper feed button is held down. */
static bool is_stopped(const kij_link *link) {
    const kij_signs *signs = &link->signs;
    return is_offline(link) && (signs->is_cover_open || signs->has_fault || signs->paper == KIJ_PAPER_EMPTY);
}

/* Whether a printer may be silent for long, and is still there: it takes nothing over a line that holds bytes back, and
   says that it goes on before it acknowledges anything. One that is asked says that only if it is asked. */
static bool may_be_silent(const kij_link *link) {
    return kij_internal_port_holds_back(&link->port) && (link->is_asked ? is_stopped(link) : is_offline(link));
}

/* Puts bytes that nothing acknowledges out next. If there is no room, the printer takes nothing. */
static void put(kij_link *link, const void *bytes, size_t size) {
    if (link->control_size + size > sizeof link->control) return;
    memcpy(link->control + link->control_size, bytes, size);
    link->control_size += size;
}

static void put_start(kij_link *link) { put(link, link->is_asked ? asked_started : started, start_size); }

static void put_refresh(kij_link *link) {
    if (!link->is_asked) put(link, started + start_size - refresh_size, refresh_size);
}

static bool is_idle(const kij_link *link) { return link->out_sent == link->out.size && link->control_size == 0; }

/* Puts a question of DLE EOT. */
static void put_question(kij_link *link, uint32_t question) {
    const uint8_t bytes[3] = {0x10, 0x04, (uint8_t)question};
    link->question = question;
    link->questioned_at = kij_internal_now();
    /* Nobody can answer what wasn't asked. */
    if (link->unanswered == 0 && link->was_asked) link->asked_at = link->questioned_at;
    link->unanswered++;
    put(link, bytes, sizeof bytes);
}

/* Whether a question goes out at once. In a line that holds bytes back it would only wait with those before it. */
static bool may_ask(const kij_link *link) { return is_idle(link) && !kij_internal_port_is_holding(&link->port); }

/* What the printer has said up to now says nothing of what comes. */
static void stir(kij_link *link) {
    link->calm = 0;
    link->calm_at = kij_internal_now();
}

/* Asks a printer how it is that says nothing by itself, or whose late answers have told nothing: the printer, why it is
   offline, the paper, one after another. It begins again if one isn't answered in time, or late answers have ended. A
   short timeout leaves an answer time, and a long one doesn't keep what the printer says now waiting. */
static void ask_on(kij_link *link) {
    int64_t time = link->unanswered > 0 ? least(greatest(link->timeout, apart), silence) : often;
    if (link->has_late_answers) time = apart;
    else if (!link->is_asked) return;
    if (!may_ask(link) || kij_internal_now() - link->questioned_at < time) return;
    /* The late answers that haven't come are lost. */
    if (link->has_late_answers) link->unanswered = 0;
    if (link->unanswered > 0) stir(link);
    link->has_late_answers = false;
    put_question(link, ASKED_NOW);
}

/* Asks whether the printer is there. It may have been off meanwhile, and have forgotten that it is to say how it is: it
   is told again. One that is offline isn't, since it would keep that until it goes on. */
static void ask(kij_link *link) {
    link->asked_at = kij_internal_now();
    link->was_asked = true;
    if (link->is_asked) {
        if (link->unanswered == 0 && may_ask(link)) put_question(link, ASKED_NOW);
        else ask_on(link);
    } else {
        put_question(link, ASKED_NOW);
        if (link->is_there && !is_offline(link)) put_refresh(link);
    }
    link->was_sent = is_idle(link);
}

/* Whether a question is out that isn't answered. */
static bool has_question(const kij_link *link) { return link->is_asked ? link->unanswered > 0 : link->was_asked; }

/* Asks whether the printer is there, though other bytes may wait. */
static void ask_now(kij_link *link) {
    if (link->is_asked) put_question(link, ASKED_NOW);
    else ask(link);
}

/* ---- Jobs and parcels ---- */

/* The job of a number that is still known, or null. */
static kij_job *job_of(kij_link *link, uint64_t id) {
    for (size_t place = 0; id != 0 && place < 2; place++)
        if (link->has_job[place] && link->paper[place].id == id) return &link->paper[place];
    return id != 0 && link->pulse.id == id ? &link->pulse : NULL;
}

static size_t due_of(const kij_link *link, const kij_job *job) {
    size_t count = 0;
    for (size_t place = 0; place < link->due_count; place++) count += link->due[place].job == job->id;
    return count;
}

static bool is_due(const kij_link *link, const kij_job *job) { return due_of(link, job) > 0; }

/* Whether something of any order is due, and counts. */
static bool is_any_due(const kij_link *link) {
    for (size_t place = 0; place < link->due_count; place++)
        if (link->due[place].job != 0 && !link->due[place].is_torn) return true;
    return false;
}

static void remove_due(kij_link *link, size_t place) {
    link->due_count--;
    memmove(link->due + place, link->due + place + 1, (link->due_count - place) * sizeof link->due[0]);
}

/* Forgets what is due of orders that nobody asks for any more, where there is no room. What an acknowledgement says
   of the others stays the same. */
static void make_room(kij_link *link) {
    for (size_t place = 0; link->due_count == KIJ_DUE_ROOM && place < KIJ_DUE_ROOM;) {
        const kij_job *job = job_of(link, link->due[place].job);
        if (job != &link->paper[false] && job != &link->paper[true]) remove_due(link, place);
        else place++;
    }
}

/* Puts bytes and the question for their acknowledgement out. Whether there is memory, and room. */
static bool send_parcel(kij_link *link, const char *bytes, size_t size, kij_job *job) {
    uint8_t end[KIJ_END_ROOM];
    size_t before = link->out.size;
    /* Each answer without a number is counted, so none of those that are due may be forgotten. */
    if (link->is_asked && link->due_count == KIJ_DUE_ROOM) return false;
    link->number = (link->number + 1) % NUMBERS;
    memcpy(end, link->end, sizeof end);
    /* The library's question has the number in its last four bytes, a digit of sixteen in each. */
    for (size_t digit = 0; !link->is_asked && digit < 4; digit++)
        end[JOB_SIZE - 1 - digit] = (uint8_t)(0x40 | ((link->number >> (4 * digit)) & 15));
    if (!kij_internal_buffer_add(&link->out, bytes, size) ||
        !kij_internal_buffer_add(&link->out, end, link->end_size)) {
        link->out.size = before;
        return false;
    }
    make_room(link);
    stir(link);
    kij_parcel *parcel = &link->due[link->due_count++];
    memset(parcel, 0, sizeof *parcel);
    parcel->number = link->number;
    parcel->turn = link->port.turns;
    parcel->place = link->put_out;
    link->put_out += link->out.size - before;
    if (job != NULL) {
        parcel->job = job->id;
        parcel->from = job->sent;
        parcel->to = job->sent + size;
        parcel->is_last = parcel->to == job->data.size;
        parcel->is_once = job->is_once && job->data.size > 0;
    }
    return true;
}

/* Where the piece of an order ends that begins here: behind a line feed, a pulse, a feed or a cut. */
static size_t piece_end(const kij_buffer *data, size_t at) {
    const uint8_t *bytes = (const uint8_t *)data->bytes;
    while (at < data->size) {
        uint8_t first = bytes[at], second = at + 1 < data->size ? bytes[at + 1] : 0;
        size_t size = 1;
        bool is_end = first == '\n';
        if (first == 0x1b) {
            is_end = second == 'p' || second == 'd';
            size = second == 'p' ? 5 : 3;
        } else if (first == 0x1d) {
            is_end = true;
            size = at + 2 < data->size && (bytes[at + 2] == 'A' || bytes[at + 2] == 'B') ? 4 : 3;
        }
        at += size;
        if (is_end) break;
    }
    return at < data->size ? at : data->size;
}

/* Whether a printer was silent whose line holds bytes back: of an order that waits there it might get the end alone. */
static bool is_doubtful(const kij_link *link) {
    return link->was_silent && kij_internal_port_holds_back(&link->port);
}

/* Whether the next piece of an order, which ends here, may go out though others aren't acknowledged. */
static bool may_send(const kij_link *link, const kij_job *job, size_t end) {
    /* Answers to GS r have no number: one piece is out at a time, so that none counts for another. */
    size_t count = due_of(link, job), most = link->is_asked ? 1 : KIJ_DUE_OF_JOB;
    if (count == 0 || !kij_internal_port_holds_back(&link->port)) return count < most;
    uint64_t unacknowledged = link->put_out - link->due[0].place + (end - job->sent) + link->end_size;
    return count < most && unacknowledged <= ENOUGH_HELD;
}

/* Puts out what comes next, once nothing is left of what went out before: what nothing acknowledges, and then pieces of
   the order. */
static void fill(kij_link *link) {
    kij_job *job = is_doubtful(link) ? NULL : link->posting;
    if (link->out_sent < link->out.size) return;
    link->out.size = link->out_sent = 0;
    if (link->control_size > 0 && kij_internal_buffer_add(&link->out, link->control, link->control_size)) {
        link->put_out += link->control_size;
        link->control_size = 0;
    }
    while (job != NULL && !job->is_all_sent && link->out.size < ENOUGH) {
        size_t end = piece_end(&job->data, job->sent);
        if (!may_send(link, job, end)) return;
        if (!send_parcel(link, job->data.bytes + job->sent, end - job->sent, job)) return;
        job->sent = end;
        job->is_all_sent = end == job->data.size;
    }
}

/* Takes back what hasn't begun to go out. */
static void drop(kij_link *link) {
    uint64_t begun = link->put_out - (link->out.size - link->out_sent);
    while (link->due_count > 0 && link->due[link->due_count - 1].place >= begun) {
        kij_parcel *last = &link->due[link->due_count - 1];
        if (last->turn != link->port.turns) return;
        kij_job *job = job_of(link, last->job);
        if (job != NULL) {
            job->sent = last->from;
            job->is_all_sent = false;
        }
        link->out.size -= (size_t)(link->put_out - last->place);
        link->put_out = last->place;
        link->due_count--;
    }
}

/* What is due counts for nothing. */
static void tear_due(kij_link *link) {
    for (size_t place = 0; place < link->due_count; place++) {
        kij_job *job = job_of(link, link->due[place].job);
        if (job != NULL) job->is_torn = true;
        link->due[place].is_torn = true;
    }
}

/* What is due is lost. */
static void lose_due(kij_link *link) {
    tear_due(link);
    link->due_count = link->answered = link->again = 0;
}

/* The printer may have lost its power while its line held back the end of a piece, which it would print and acknowledge
   as if it were whole. Nothing of what was sent counts any more, and the printer is asked whether it is there. Answers
   without a number may come still, and mustn't count for what is sent next. */
static void lose_sent(kij_link *link) {
    kij_internal_port_discard(&link->port);
    drop(link);
    link->out.size = link->out_sent = link->control_size = 0;
    if (link->is_asked) tear_due(link);
    else lose_due(link);
    link->was_silent = true;
    ask_now(link);
}

/* When the question was put that is out. */
static int64_t asked_last(const kij_link *link) { return link->is_asked ? link->questioned_at : link->asked_at; }

/* How long a printer has said nothing. */
static int64_t quiet_of(const kij_link *link) {
    return kij_internal_now() - greatest(link->heard_at, link->began_at);
}

/* Whether a line may hold back a part of what is due for a printer that should say something. One that is asked may
   also be off and on again after it has told why it is offline, and then doesn't say so. */
static bool is_held(const kij_link *link) {
    bool is_any = kij_internal_port_holds_back(&link->port) && is_any_due(link);
    return is_any && (link->is_asked || !may_be_silent(link));
}

/* Looks whether a printer says anything of an order, or answers, if its line holds bytes back. It has time to answer,
   also if nobody has looked for long; at the end of an order that time is over. */
static void watch(kij_link *link, bool is_end) {
    int64_t most = least(link->timeout, silence), quiet = quiet_of(link);
    if (!is_held(link) || quiet < most / 2) return;
    bool had_time = has_question(link) && kij_internal_now() - asked_last(link) >= most / 2;
    if (is_end || (quiet >= most && had_time)) lose_sent(link);
    else if (!has_question(link)) ask_now(link);
}

/* Bytes of a parcel's order were lost. */
static void tear(kij_link *link, const kij_parcel *parcel) {
    kij_job *job = job_of(link, parcel->job);
    uint64_t id = parcel->job;
    if (job != NULL) job->is_torn = true;
    for (size_t place = 0; place < link->due_count; place++)
        if (link->due[place].job == id) link->due[place].is_torn = true;
}

/* What a parcel is of is printed. */
static void print(kij_link *link, const kij_parcel *parcel) {
    kij_job *job = job_of(link, parcel->job);
    if (job == NULL) {
        if (parcel->is_last && parcel->is_once) link->late++;
        return;
    }
    if (parcel->to > job->done) job->done = parcel->to;
    if (parcel->is_last) job->is_done = true;
}

/* The parcel at this place is printed. Those before it are printed or lost, and nothing says which: any port may stay
   while the printer is off, as that of a print server does. The order that is out waits for all of them, also for those
   of an order before it, so it has the whole timeout again. */
static void acknowledge(kij_link *link, size_t last) {
    link->ends_at = kij_internal_now() + link->timeout;
    for (size_t left = last + 1; left > 0; left--) {
        kij_parcel parcel = link->due[0];
        kij_job *job = job_of(link, parcel.job);
        remove_due(link, 0);
        if (parcel.job == 0) continue;
        if (left == 1 && !parcel.is_torn && (job == NULL || !job->is_torn)) print(link, &parcel);
        else tear(link, &parcel);
    }
}

/* Whether a marker is out. */
static bool is_marked(const kij_link *link) {
    const kij_parcel *last = &link->due[link->due_count - 1];
    return last->job == 0 && last->place < link->put_out - (link->out.size - link->out_sent);
}

/* An acknowledgement without a number. Once a marker is out, it doesn't say which question it is for, unless each has
   one. */
static void acknowledge_next(kij_link *link) {
    stir(link);
    if (!is_marked(link)) {
        acknowledge(link, 0);
        return;
    }
    link->answered++;
    link->ends_at = kij_internal_now() + greatest(link->timeout, silence);
    if (link->answered < link->due_count + link->again) return;
    while (link->due_count > 0) acknowledge(link, 0);
    link->answered = link->again = 0;
}

/* Whether a printer that acknowledges something has lost its power since it was offline. Otherwise it would have said
   first that it goes on. */
static bool was_reset(const kij_link *link) {
    return may_be_silent(link) && kij_internal_now() - link->offline_at > shortly;
}

/* A job is acknowledged, if one of the number is due. */
static void acknowledge_number(kij_link *link, uint32_t number) {
    for (size_t place = 0; place < link->due_count; place++) {
        if (link->due[place].number == number) {
            if (was_reset(link)) lose_sent(link);
            else acknowledge(link, place);
            return;
        }
    }
}

/* ---- What comes ---- */

/* Has the library read bytes by the printer's name; by that of its drawer while the printer is detached, which prints
   nothing then, but has the drawer's connector still. */
static uint32_t read_reply(kij_link *link, uint32_t asked, const uint8_t *bytes, size_t size, size_t *used,
                           size_t *skipped, char *text, size_t room, size_t *needed) {
    kij_till *till = link->till;
    const kij_word *name = link->name;
    uint32_t code = kijolvar_replies(till->inner, &till->inner.at, (const uint8_t *)name->text + 1, name->size - 1,
                                     link->wire, asked, bytes, size, used, skipped, (uint8_t *)text, room, needed);
    if (code != KIJOLVAR_NO_DEVICE || link->drawer == NULL) return code;
    name = link->drawer;
    return kijolvar_replies(till->inner, &till->inner.at, (const uint8_t *)name->text + 1, name->size - 1, link->wire,
                            asked, bytes, size, used, skipped, (uint8_t *)text, room, needed);
}

bool kij_internal_reply(kij_till *till, const kij_word *name, const kijolvar_wire_settings *wire, const kij_told *told,
                        char *text, size_t room) {
    const uint8_t *device = (const uint8_t *)name->text + 1;
    size_t used = 0, skipped = 0, needed = 0;
    uint32_t code = kijolvar_replies(till->inner, &till->inner.at, device, name->size - 1, wire, told->asked,
                                     told->bytes, told->size, &used, &skipped, (uint8_t *)text, room - 1, &needed);
    text[code == KIJOLVAR_OK ? needed : 0] = 0;
    return code == KIJOLVAR_OK;
}

uint32_t kij_internal_order_bytes(kij_till *till, const kijolvar_wire_settings *wire, bool is_new, uint32_t end,
                                  kij_buffer *bytes) {
    size_t needed = 0;
    uint32_t code = kijolvar_order_bytes(till->inner, &till->inner.at, wire, is_new, end, (uint8_t *)bytes->bytes,
                                         bytes->room, &needed);
    if (code == KIJOLVAR_SHORT) {
        if (!kij_internal_buffer_room(bytes, needed)) return KIJOLVAR_NO_MEMORY;
        code = kijolvar_order_bytes(till->inner, &till->inner.at, wire, is_new, end, (uint8_t *)bytes->bytes,
                                    bytes->room, &needed);
    }
    bytes->size = code == KIJOLVAR_OK ? needed : 0;
    return code;
}

/* Takes what a `status` line says of one thing. Whether it says anything. */
static bool says(const char *line, const char *word, const char *value) {
    char both[32];
    snprintf(both, sizeof both, " %s %s", word, value);
    const char *found = strstr(line, both);
    return found != NULL && strchr(" \n", found[strlen(both)]) != NULL;
}

/* Takes over what a `status` line says. */
static void hear(kij_signs *signs, const char *line) {
    if (says(line, "pin", "high")) signs->is_pin_high = true;
    if (says(line, "pin", "low")) signs->is_pin_high = false;
    if (says(line, "offline", "yes")) signs->is_offline = true;
    if (says(line, "offline", "no")) signs->is_offline = false;
    if (says(line, "cover", "open")) signs->is_cover_open = true;
    if (says(line, "cover", "closed")) signs->is_cover_open = false;
    if (says(line, "fault", "yes")) signs->has_fault = true;
    if (says(line, "fault", "no")) signs->has_fault = false;
    if (says(line, "paper", "good")) signs->paper = KIJ_PAPER_GOOD;
    if (says(line, "paper", "near")) signs->paper = KIJ_PAPER_NEAR;
    if (says(line, "paper", "empty")) signs->paper = KIJ_PAPER_EMPTY;
}

/* The printer answers again. It may have been off, and then it says no status by itself. A serial line always stays,
   so that its printer may have a part of a command. */
static void come_back(kij_link *link) {
    if (!link->is_started || link->port.kind == KIJ_PORT_SERIAL) put_start(link);
    link->is_there = true;
    link->is_started = link->was_silent = link->is_refreshing = false;
}

/* The printer has answered something. */
static void answered(kij_link *link) {
    link->was_asked = false;
    link->heard_at = kij_internal_now();
    if (link->was_silent || !link->is_there) come_back(link);
}

/* The last line of a reply, which says what it is. */
static const char *last_line(const char *text) {
    const char *line = text;
    for (const char *at = text; *at != 0; at++)
        if (*at == '\n' && at[1] != 0) line = at + 1;
    return line;
}

/* The printer is as these replies tell. While it is offline, another status doesn't make it so again. */
static void take_signs(kij_link *link, const kij_signs *signs, const kij_told *told, size_t count) {
    if (!is_offline(link)) {
        link->offline_at = kij_internal_now();
        link->is_hearing = false;
    }
    memcpy(&link->signs, signs, sizeof link->signs);
    memcpy(link->told, told, count * sizeof *told);
    link->told_count = count;
    link->statuses++;
}

/* Puts the replies to the three questions together to what an automatic status would say. The sensor tells of the
   paper: there may be some again where printing has stopped at its end. One that is asked may have no such sensor. */
static void compose(kij_link *link, bool has_ended) {
    bool counts = has_ended && link->is_asked;
    if (counts) link->hearing.paper = KIJ_PAPER_EMPTY;
    else link->heard[1].bytes[0] &= (uint8_t)~HAS_ENDED;
    if (link->told_count == 0 || memcmp(&link->hearing, &link->signs, sizeof link->signs) != 0)
        take_signs(link, &link->hearing, link->heard, counts ? 2 : 3);
}

/* The answer to a question of DLE EOT. A printer that says by itself how it is gets the other two questions while it is
   offline: if it was off meanwhile, it may be so for another cause, and says nothing until it goes on. */
static void take_part(kij_link *link, const char *line, const kij_told *told) {
    /* Answers don't say what was asked. Questions are put again if they aren't answered, and may only have waited. */
    link->unanswered--;
    link->has_late_answers = link->unanswered > 0;
    if (link->has_late_answers) {
        link->questioned_at = kij_internal_now();
        return;
    }
    if (link->question == ASKED_NOW) {
        link->asked_why_at = link->statuses;
        link->is_hearing |= link->questioned_at > link->offline_at;
        memset(&link->hearing, 0, sizeof link->hearing);
    }
    /* It has said it by itself meanwhile. */
    if (link->statuses != link->asked_why_at) return;
    bool has_ended = link->hearing.paper == KIJ_PAPER_EMPTY;
    link->heard[link->question / 2] = *told;
    hear(&link->hearing, line);
    if (!link->is_asked && !link->hearing.is_offline) {
        /* It prints again, and hasn't said so: it was off, and has lost that it is to say how it is. */
        if (is_offline(link)) put_refresh(link);
        return;
    }
    if (link->question != 4) {
        put_question(link, 2 * link->question);
        return;
    }
    compose(link, has_ended);
    if (link->hearing.is_offline) stir(link);
    else link->calm++;
}

/* A reply of a printer that says by itself how it is: an acknowledgement, an automatic status, which alone has several
   bytes, or the answer to a question. */
static void take_reply(kij_link *link, const char *text, const kij_told *told) {
    const char *line = last_line(text);
    answered(link);
    if (strncmp(line, "job ", 4) == 0) {
        acknowledge_number(link, (uint32_t)strtoul(line + 4, NULL, 10));
    } else if (told->size > 1) {
        kij_signs signs = link->signs;
        hear(&signs, line);
        take_signs(link, &signs, told, 1);
        link->is_refreshing = false;
    } else {
        take_part(link, line, told);
    }
}

/* A reply of a printer that is asked, which is a byte. */
static void take_answer(kij_link *link, const char *text, const kij_told *told) {
    answered(link);
    if (told->asked == ASKED_PAPER) acknowledge_next(link);
    else take_part(link, last_line(text), told);
}

/* A printer that is asked has sent an automatic status, although it was told to send none: it was reset. What is due
   may not be printed, it is told again, and questions from before may have no answer. */
static void take_status(kij_link *link) {
    if (link->due_count > 0) lose_sent(link);
    link->is_there = link->is_started = false;
    answered(link);
    link->has_late_answers = link->unanswered > 0;
    link->questioned_at = kij_internal_now();
}

/* Whether a byte is one of an automatic status. That counts once it is whole. */
static bool is_of_status(kij_link *link, uint8_t byte) {
    bool is_first = (byte & 0x93) == 0x10, is_next = link->status_left > 0 && (byte & 0x90) == 0;
    link->status_left = is_first ? STATUS_SIZE - 1 : is_next ? link->status_left - 1 : 0;
    if (is_next && link->status_left == 0) take_status(link);
    return is_first || is_next;
}

/* Whether the first piece that is due has gone out whole, with its question. Nothing acknowledges it before. */
static bool is_first_sent(const kij_link *link) {
    const kij_parcel *first = &link->due[0];
    uint64_t sent = link->put_out - (link->out.size - link->out_sent);
    return first->place + (first->to - first->from) + link->end_size <= sent;
}

/* Reads a byte as one of an automatic status, as the answer to a question, or as an acknowledgement: whether there was
   memory for that. */
static bool take_byte(kij_link *link, uint8_t byte) {
    char text[256];
    if (is_of_status(link, byte)) return true;
    for (int round = link->unanswered > 0 ? 0 : 1; round < 2; round++) {
        size_t used = 0, skipped = 0, needed = 0;
        kij_told told;
        memset(&told, 0, sizeof told);
        if (round == 1 && (link->due_count == 0 || !is_first_sent(link))) return true;
        told.bytes[0] = byte;
        told.size = 1;
        told.asked = round == 0 ? link->question : (uint32_t)ASKED_PAPER;
        uint32_t code = read_reply(link, told.asked, &byte, 1, &used, &skipped, text, sizeof text - 1, &needed);
        if (code == KIJOLVAR_NO_MEMORY) return false;
        if (code != KIJOLVAR_OK || needed == 0) continue;
        text[needed] = 0;
        take_answer(link, text, &told);
        return true;
    }
    return true;
}

/* Reads each byte that has come, and forgets it, as long as there is memory. */
static void take_bytes(kij_link *link) {
    size_t taken = 0;
    while (taken < link->got_size && take_byte(link, link->got[taken])) taken++;
    link->got_size -= taken;
    memmove(link->got, link->got + taken, link->got_size);
}

/* Reads the first reply in what has come, and forgets the bytes that it used: whether any were used. */
static bool take_first(kij_link *link) {
    char text[256];
    size_t used = 0, skipped = 0, needed = 0;
    uint32_t asked = link->unanswered > 0 ? link->question : 0;
    uint32_t code = read_reply(link, asked, link->got, link->got_size, &used, &skipped, text, sizeof text - 1, &needed);
    if (code != KIJOLVAR_OK || used == 0) return false;
    text[needed] = 0;
    kij_told told;
    memset(&told, 0, sizeof told);
    told.asked = asked;
    /* What isn't the reply was skipped before it. */
    told.size = used - skipped < sizeof told.bytes ? used - skipped : sizeof told.bytes;
    memcpy(told.bytes, link->got + used - told.size, told.size);
    link->got_size -= used;
    memmove(link->got, link->got + used, link->got_size);
    if (needed > 0) take_reply(link, text, &told);
    return true;
}

/* Reads once: false if the port was lost. Whether anything came is written. */
static bool read_some(kij_link *link, bool *is_any) {
    size_t count = 0;
    /* Bytes that the library couldn't read for so long are no reply. */
    if (link->got_size == sizeof link->got) link->got_size = 0;
    if (!kij_internal_port_read(&link->port, link->got + link->got_size, sizeof link->got - link->got_size, &count))
        return false;
    *is_any = count > 0;
    link->got_size += count;
    if (link->is_asked) {
        take_bytes(link);
    } else {
        while (link->got_size > 0 && take_first(link)) continue;
    }
    return true;
}

/* Whether a printer may have been off since anybody looked, so that what it has acknowledged since is no whole line. */
static bool may_have_been_off(const kij_link *link) {
    if (!kij_internal_link_is_online(link) || !is_held(link)) return false;
    int64_t unseen = kij_internal_now() - link->looked_at;
    int64_t unseen_in_all = kij_internal_now_in_all() - link->looked_at_in_all;
    bool was_long = quiet_of(link) >= silence && unseen >= least(link->timeout, silence) / 2;
    return was_long || unseen_in_all >= silence;
}

/* Somebody looks what has come. If nobody has for long, as while this process stood still or the machine was suspended,
   the printer may have been off meanwhile. */
static void begin_look(kij_link *link) {
    if (may_have_been_off(link)) lose_sent(link);
    link->looked_at = kij_internal_now();
    link->looked_at_in_all = kij_internal_now_in_all();
}

/* Reads what has come: false if the port was lost. */
static bool receive(kij_link *link) {
    bool can_read, can_write, is_any = true;
    begin_look(link);
    for (int part = 0; part < KIJ_MOST_PARTS && is_any; part++) {
        is_any = false;
        kij_internal_port_wait(&link->port, false, 0, &can_read, &can_write);
        if (can_read && !read_some(link, &is_any)) return false;
    }
    return true;
}

/* Sends what there is room for: false if the port was lost. */
static bool write_some(kij_link *link) {
    size_t count = 0;
    const char *bytes = link->out.bytes + link->out_sent;
    bool is_kept = kij_internal_port_write(&link->port, bytes, link->out.size - link->out_sent, &count);
    link->out_sent += count;
    if (!link->was_sent && is_idle(link)) {
        /* A question counts from here. Nobody can answer what wasn't sent. */
        link->was_sent = true;
        link->asked_at = kij_internal_now();
    }
    return is_kept;
}

/* Sends what comes next, as far as there is room for it now: false if the port was lost. */
static bool send_now(kij_link *link) {
    bool can_read, can_write;
    fill(link);
    if (link->out_sent == link->out.size) return true;
    kij_internal_port_wait(&link->port, true, 0, &can_read, &can_write);
    return !can_write || write_some(link);
}

/* What is waited for. */
typedef bool (*is_reached)(const kij_link *link, const kij_job *job);

static bool is_printed(const kij_link *link, const kij_job *job) {
    return job->is_done || job->is_torn || is_stopped(link);
}

static bool is_settled(const kij_link *link, const kij_job *job) {
    return job->is_done || !is_due(link, job) || is_stopped(link);
}

/* Whether no acknowledgement is left of those that may come since a marker is out: one has come, and none behind it
   though the printer has said several times that it can print. The first of these rounds may have begun before. */
static bool is_all_answered(const kij_link *link) {
    return link->answered > 0 && link->calm > 1 && kij_internal_now() - link->calm_at >= shortly;
}

static bool is_none_due(const kij_link *link, const kij_job *job) {
    (void)job;
    return link->due_count == 0 || is_stopped(link) || is_all_answered(link);
}

static bool is_calm(const kij_link *link, const kij_job *job) { return link->calm > 0 || is_none_due(link, job); }

static bool is_known(const kij_link *link, const kij_job *job) {
    (void)job;
    return link->told_count > 0;
}

static bool is_answered(const kij_link *link, const kij_job *job) {
    (void)job;
    return !link->was_silent || is_stopped(link);
}

/* Sends and reads until something is so, or the order's time is over: false if the port was lost. */
static bool pump(kij_link *link, is_reached reached, const kij_job *job) {
    while (!reached(link, job)) {
        bool can_read, can_write, is_any = false;
        int64_t left = link->ends_at - kij_internal_now();
        if (left <= 0) {
            /* This process may have stood still. What has come meanwhile counts. */
            if (!receive(link)) return false;
            if (kij_internal_now() >= link->ends_at) return true;
            continue;
        }
        ask_on(link);
        fill(link);
        kij_internal_wait_typing(link->till, &link->port, link->out_sent < link->out.size, least(left, often),
                                 &can_read, &can_write);
        begin_look(link);
        if (can_read && !read_some(link, &is_any)) return false;
        if (can_write && !write_some(link)) return false;
        /* What has come was read before. */
        watch(link, false);
        if (can_read && !is_any && !can_write) kij_internal_rest_typing(link->till, least(left, often));
    }
    return true;
}

/* ---- The port ---- */

static void forget(kij_link *link) {
    drop(link);
    link->out.size = link->out_sent = link->control_size = link->got_size = 0;
    link->is_there = link->is_started = link->was_silent = link->is_refreshing = link->was_asked = false;
    link->has_late_answers = false;
    link->told_count = 0;
    /* A print server may pass the answers to an earlier connection on to this one. */
    if (link->port.kind != KIJ_PORT_TCP) link->unanswered = 0;
    link->status_left = 0;
    link->questioned_at = KIJ_NEVER;
    memset(&link->signs, 0, sizeof link->signs);
    if (!link->is_asked) return;
    /* Acknowledgements without a number may still come over another connection, and mustn't count for what is sent over
       that. A marker of its own finds out which are lost. */
    tear_due(link);
    stir(link);
    link->answered = 0;
    link->marked_at = KIJ_NEVER;
}

/* The port was lost, with what wasn't sent. What was sent may still be acknowledged over the next one. What had come
   before a write failed counts, unless the port has kept back what it is about. */
static void lose(kij_link *link) {
    int why = link->port.error;
    if (kij_internal_port_is_open(&link->port) && !kij_internal_port_holds_back(&link->port)) (void)receive(link);
    link->port.error = why;
    kij_internal_port_close(&link->port);
    forget(link);
}

static void connect_port(kij_link *link, int64_t time) {
    bool is_open = kij_internal_port_open(&link->port, time);
    link->tried_at = kij_internal_now();
    if (!is_open) return;
    forget(link);
    put_start(link);
    link->is_started = true;
    link->began_at = kij_internal_now();
    ask(link);
}

void kij_internal_link_start(kij_link *link) {
    link->ends_at = kij_internal_now() + link->timeout;
    link->end_size = link->is_asked ? QUESTION_SIZE : JOB_SIZE;
    link->tried_at = link->refreshed_at = link->questioned_at = link->heard_at = link->began_at = KIJ_NEVER;
    link->looked_at = link->looked_at_in_all = KIJ_NEVER;
    /* A printer may still acknowledge jobs of a host that has ended. Those shouldn't have the numbers of these. */
    link->number = ((uint32_t)kij_internal_now() ^ (uint32_t)getpid() * 2654435761u >> 8) % NUMBERS;
    connect_port(link, link->timeout);
    if (kij_internal_port_is_open(&link->port) && !pump(link, is_known, NULL)) lose(link);
}

/* How long a printer may say nothing before it is asked. One that can't print, or isn't there, as far as is known, may
   be well again, and what it has said of that be lost: that doesn't wait for a long timeout. */
static int64_t longest_quiet(const kij_link *link) {
    bool is_well = link->is_there && !is_offline(link);
    return is_well ? link->timeout : least(link->timeout, silence);
}

/* Asks again, also though a question is out that may be lost. That one stays, with its time. */
static void ask_again(kij_link *link, int64_t most) {
    bool is_lost = link->was_asked && link->was_sent && kij_internal_now() - link->questioned_at > most;
    if (!link->is_asked && !link->has_late_answers && is_lost && may_ask(link)) put_question(link, ASKED_NOW);
}

/* Asks a printer that has said nothing for a time, and one that says that it can't print, for more. One that may be
   silent isn't off for that, unless it has answered since it said so. False if the port is to be opened again: a
   network printer that lost its power has closed nothing, and the system would send it what comes next for minutes.
   What is due may still be acknowledged. */
static bool look_after(kij_link *link) {
    int64_t now = kij_internal_now(), most = longest_quiet(link), since = link->asked_at;
    bool may_wait = may_be_silent(link) && !link->is_hearing;
    /* As long as late answers come, no question is put. */
    if (link->has_late_answers) since = greatest(since, link->questioned_at + apart);
    bool is_late = link->was_asked && now - since > link->timeout;
    watch(link, false);
    if (is_late && !may_wait) {
        if (kij_internal_port_holds_back(&link->port) && is_any_due(link)) lose_sent(link);
        kij_internal_port_resume(&link->port);
        link->is_there = link->is_started = false;
        link->told_count = 0;
        memset(&link->signs, 0, sizeof link->signs);
        if (link->port.kind == KIJ_PORT_TCP && !(link->is_asked ? is_any_due(link) : link->due_count > 0)) {
            link->port.error = ETIMEDOUT;
            return false;
        }
    }
    /* After an order that failed it is asked at once. A question that is out stays, with its time: if each such order
       asked again, a printer that is off would never count as off. */
    bool is_heard = link->is_there && !link->was_silent && now - link->heard_at <= most;
    if (!is_late) ask_again(link, most);
    if (!is_heard && !link->has_late_answers && (!link->was_asked || is_late)) {
        if (may_ask(link)) {
            ask(link);
        } else if (!link->was_asked && link->unanswered > 0 && kij_internal_port_is_holding(&link->port)) {
            /* A question that waits in the line already counts from now on. */
            link->was_asked = link->was_sent = true;
            link->asked_at = now;
        }
    }
    if (is_stopped(link) && !link->is_refreshing && now - link->refreshed_at > link->pause && may_ask(link)) {
        link->is_refreshing = true;
        link->refreshed_at = now;
        put_refresh(link);
    }
    ask_on(link);
    return true;
}

void kij_internal_link_poll(kij_link *link) {
    if (!kij_internal_port_is_open(&link->port)) {
        if (link->port.is_joining || kij_internal_now() - link->tried_at >= link->pause)
            connect_port(link, least(link->timeout, quickly));
        return;
    }
    if (!(receive(link) && send_now(link) && look_after(link) && send_now(link))) lose(link);
}

/* ---- Orders ---- */

/* Makes a job of the bytes of the order that is out. */
static void begin(kij_link *link, kij_job *job, bool is_once) {
    kij_buffer before = job->data;
    memset(job, 0, sizeof *job);
    job->id = ++link->jobs;
    job->data = link->fresh;
    job->is_once = is_once;
    link->fresh = before;
}

/* Asks once more in place of a marker that isn't answered and may be lost. Its answer may come all the same, so that it
   is counted. */
static void put_marker_again(kij_link *link) {
    bool had_time = kij_internal_now() - link->marked_at >= greatest(link->timeout, silence);
    if (link->calm == 0 || !had_time || !may_ask(link)) return;
    put(link, link->end, link->end_size);
    link->again++;
    link->marked_at = kij_internal_now();
    stir(link);
}

/* Asks for an acknowledgement of all that was sent before. */
static void put_marker(kij_link *link) {
    if (link->due_count > 0 && link->due[link->due_count - 1].job == 0) {
        /* Nobody has answered the last one yet. Its answer will be counted, if it has no number: it serves again. */
        if (link->is_asked) {
            put_marker_again(link);
            return;
        }
        link->due_count--;
    }
    if (send_parcel(link, NULL, 0, NULL)) link->marked_at = kij_internal_now();
}

/* Waits for acknowledgements that are late, where they have no number, and finds out which are lost, by a marker. The
   printer does nothing between what is due and that, so that it answers both together, however late: if one answer
   comes alone, the other is lost. That doesn't depend on the timeout. False if the port was lost. */
static bool give_up(kij_link *link) {
    if (!link->is_asked || link->due_count == 0) return true;
    if (link->answered > 0) {
        /* Nobody may have looked for long. */
        stir(link);
        link->ends_at = greatest(link->ends_at, kij_internal_now() + silence);
    }
    if (!pump(link, is_calm, NULL)) return false;
    if (link->calm > 0 && !is_none_due(link, NULL)) put_marker(link);
    if (!pump(link, is_none_due, NULL)) return false;
    if (link->due_count > 0 && is_all_answered(link)) {
        lose_due(link);
        link->ends_at = kij_internal_now() + link->timeout;
    }
    return true;
}

static void forget_order(kij_link *link, bool is_waiting) {
    const kij_job *job = &link->paper[is_waiting];
    /* It was printed after it had failed, and isn't asked for again. */
    if (link->has_job[is_waiting] && job->is_done && job->data.size > 0) link->late++;
    link->has_job[is_waiting] = false;
}

void kij_internal_link_forget_orders(kij_link *link) {
    forget_order(link, false);
    forget_order(link, true);
}

/* Whether the order that is out is the one that failed. */
static bool is_same(const kij_link *link, bool is_waiting) {
    const kij_buffer *data = &link->paper[is_waiting].data, *fresh = &link->fresh;
    if (!link->has_job[is_waiting] || data->size != fresh->size) return false;
    return data->size == 0 || memcmp(data->bytes, fresh->bytes, data->size) == 0;
}

/* Whether the order that is out has failed before. Its job is in its place then. */
static bool find_failed(kij_link *link, bool is_waiting) {
    if (is_same(link, is_waiting)) return true;
    forget_order(link, is_waiting);
    if (!is_same(link, !is_waiting)) return false;
    kij_job found = link->paper[!is_waiting];
    link->paper[!is_waiting] = link->paper[is_waiting];
    link->paper[is_waiting] = found;
    link->has_job[is_waiting] = true;
    link->has_job[!is_waiting] = false;
    return true;
}

/* The job of the order that is out: the one that failed if it is the same, and how far that one has come. Null if the
   port was lost. */
static kij_job *take_up(kij_link *link, bool is_once, bool is_waiting) {
    kij_job *job = is_once ? &link->paper[is_waiting] : &link->pulse;
    if (!give_up(link)) return NULL;
    if (!is_once || !find_failed(link, is_waiting)) {
        begin(link, job, is_once);
        link->has_job[is_waiting] |= is_once;
        return job;
    }
    if (is_due(link, job)) {
        /* What was sent before is printed or lost once this is acknowledged. */
        put_marker(link);
        if (!pump(link, is_settled, job)) return NULL;
    }
    if (!is_due(link, job)) {
        /* Some of it was lost, and the printer may have begun a line. */
        if (job->sent > job->done) put_start(link);
        job->sent = job->done;
        job->is_all_sent = job->is_done;
        job->is_torn = false;
    }
    return job;
}

/* Waits for an answer of a printer in doubt, unless it has stopped: false if the port was lost. */
static bool hear_first(kij_link *link) {
    if (!is_doubtful(link)) return true;
    bool is_late = !link->is_asked && kij_internal_now() - link->asked_at >= link->timeout;
    if (!has_question(link) || is_late) ask_now(link);
    return pump(link, is_answered, NULL);
}

/* Sends the order, as far as it wasn't, unless its time is over: false if the port was lost. */
static bool post(kij_link *link, kij_job *job) {
    if (!job->is_done && !hear_first(link)) return false;
    if (job->is_done || is_stopped(link) || is_due(link, job) || kij_internal_now() >= link->ends_at) return true;
    link->posting = job;
    fill(link);
    bool is_kept = link->out_sent == link->out.size || write_some(link);
    is_kept = is_kept && pump(link, is_printed, job);
    link->posting = NULL;
    return is_kept;
}

/* How many lines an order has, or more: its commands may have the same byte. */
static size_t lines_of(const kij_buffer *data) {
    size_t count = 0;
    for (size_t place = 0; place < data->size; place++) count += data->bytes[place] == '\n';
    return count;
}

bool kij_internal_link_carry_out(kij_link *link, const kijolvar_wire_settings *wire, bool is_once, bool is_waiting) {
    if (may_have_been_off(link)) lose_sent(link);
    link->began_at = kij_internal_now();
    link->ends_at = link->began_at + link->timeout;
    if (!kij_internal_link_is_online(link)) return false;
    uint32_t code = kij_internal_order_bytes(link->till, wire, false, link->is_asked ? (uint32_t)PAPER_IN_ORDER : 0,
                                             &link->fresh);
    if (code != KIJOLVAR_OK || link->fresh.size < link->end_size) return false;
    link->fresh.size -= link->end_size;
    memcpy(link->end, link->fresh.bytes + link->fresh.size, link->end_size);
    /* What puts nothing on the paper, such as a text without a line's end, gives up no order that failed. */
    is_once = is_once && link->fresh.size > 0;
    kij_job *job = receive(link) ? take_up(link, is_once, is_waiting) : NULL;
    if (job == NULL || !post(link, job)) {
        lose(link);
        return false;
    }
    if (job->is_done) {
        if (!is_once) return true;
        link->lines += lines_of(&job->data);
        link->has_job[is_waiting] = false;
        return true;
    }
    drop(link);
    watch(link, true);
    if (!is_stopped(link)) link->was_silent = true;
    return false;
}

void kij_internal_link_end(kij_link *link) {
    kij_internal_port_close(&link->port);
    free(link->paper[false].data.bytes);
    free(link->paper[true].data.bytes);
    free(link->pulse.data.bytes);
    free(link->fresh.bytes);
    free(link->out.bytes);
    free(link);
}
