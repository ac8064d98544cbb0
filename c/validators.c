/* Four validators with disks in one process, of which one votes both ways. Messages between them come in
 * any order and are lost now and then, and each validator is stopped at any moment, in the middle of a write
 * too, and started again by its disk; now and then all are at once. By seeds 0, 1, .. up to the one
 * that is named. It ends with 0, or with 1 where the honest don't agree, contradict themselves, block each
 * other or come to a halt, and names the line and the seed.
 *
 * A signature here is a checksum that anybody can make, in the place of a real one. */
#include "batcher.h"
#include <stdio.h>
#include <stdlib.h>
#include <string.h>

#define VALIDATORS 4
#define EQUIVOCATES 3
#define VIEWS 10000
#define ROOM 65536
#define MESSAGES 4096
#define SHOWN 4096
#define LENT 64
#define CHECK(holds)                                                                                \
    do {                                                                                            \
        if (!(holds)) return __LINE__;                                                              \
    } while (0)

static uint64_t state;

/* A number below a bound. */
static uint64_t below(uint64_t bound) {
    state = state * 6364136223846793005u + 1442695040888963407u;
    return (state >> 33) % bound;
}

/* A vote, or a certificate by its bytes. */
struct message {
    uint32_t from;
    bool is_vote;
    struct batcher_vote vote; /* of a certificate its kind and proposal alone */
    uint8_t bytes[1024];
    size_t length;
};

struct validator {
    struct batcher_validator inner;
    /* What was written is in two files, of which one is in use. */
    struct batcher_files files;
    uint8_t file[2][ROOM];
    size_t length[2];
    int in_use;
    struct message *inbox;
    size_t count;
    uint64_t view;
    /* Over all its lives: what is final, and what it sent in each view, of each kind. */
    uint64_t last;
    struct batcher_proposal *sent[3];
    bool *did_send[3];
};

static struct validator all[VALIDATORS];
static struct batcher_proposal chain[VIEWS];
static bool is_final[VIEWS];

/* Of each kind no more votes wait than there are validators, and none once it is certified. */
static bool counts_votes(const struct batcher_progress *it) {
    const struct batcher_counts *kinds[3] = {&it->notarizes, &it->nullifies, &it->finalizes};
    for (int kind = 0; kind < 3; kind++)
        if (kinds[kind]->pending + kinds[kind]->verified > (kinds[kind]->certified ? 0 : VALIDATORS))
            return false;
    return true;
}

static uint64_t mixed(uint64_t sum, const void *from, size_t length) {
    const uint8_t *bytes = from;
    for (size_t i = 0; i < length; i++) sum = (sum ^ bytes[i]) * 1099511628211u;
    return sum;
}

/* Of a nullify the epoch and the view alone are signed. */
static uint64_t checksum(uint32_t signer, uint8_t kind, const struct batcher_proposal *proposal) {
    uint64_t sum = mixed(mixed(14695981039346656037u, &signer, sizeof signer), &kind, 1);
    sum = mixed(mixed(sum, &proposal->epoch, 8), &proposal->view, 8);
    if (kind == BATCHER_NULLIFICATION) return sum;
    return mixed(mixed(sum, &proposal->parent, 8), proposal->payload, 32);
}

static struct batcher_attestation sign(uint32_t signer, uint8_t kind, const struct batcher_proposal *proposal) {
    struct batcher_attestation made;
    uint64_t sum = checksum(signer, kind, proposal);
    memset(&made, 0, sizeof made);
    made.signer = signer;
    made.length = sizeof sum;
    memcpy(made.bytes, &sum, sizeof sum);
    return made;
}

static bool attests(uint8_t kind, const struct batcher_proposal *proposal, const struct batcher_attestation *it) {
    struct batcher_attestation made = sign(it->signer, kind, proposal);
    return it->length == made.length && memcmp(it->bytes, made.bytes, sizeof made.bytes) == 0;
}

/* Whether each attestation attests that the bytes of a certificate list, and how many they are: none where it is no list of a
 * quorum. */
static size_t verdicts_on(const struct batcher_validator *validator, const struct message *it, bool *verdicts) {
    struct batcher_attestation list[VALIDATORS];
    uint64_t listed = 0;
    if (batcher_validator_listed(validator, it->bytes, it->length, list, VALIDATORS, &listed) != BATCHER_VERIFY) return 0;
    for (uint64_t i = 0; i < listed; i++) verdicts[i] = attests(it->vote.kind, &it->vote.proposal, &list[i]);
    return listed;
}

static bool certifies(const struct batcher_validator *validator, const struct message *it) {
    bool verdicts[VALIDATORS], all = true;
    size_t given = verdicts_on(validator, it, verdicts);
    for (size_t i = 0; i < given; i++) all = all && verdicts[i];
    return given != 0 && all;
}

/* One in ten messages is lost, and so is each that finds no room. */
static void send_all(const struct message *message) {
    for (uint32_t to = 0; to < VALIDATORS; to++) {
        if (to == message->from || below(10) == 0 || all[to].count == MESSAGES) continue;
        all[to].inbox[all[to].count++] = *message;
    }
}

/* Writes to a file, or only the first of the bytes where it is stopped meanwhile. */
static void write_at(struct validator *it, int file, uint64_t at, const uint8_t *bytes, size_t count, bool *is_stopped) {
    *is_stopped = below(100) == 0;
    if (*is_stopped) count = below(count + 1);
    memcpy(it->file[file] + at, bytes, count);
    if (it->length[file] < at + count) it->length[file] = at + count;
}

/* Does what is to be done to the files, unless it is stopped. */
static int carry_out(struct validator *it, bool *is_stopped) {
    static uint8_t frame[ROOM];
    struct batcher_change change;
    uint64_t count = 0;
    CHECK(batcher_files_frame(&it->files, frame, sizeof frame, &count) == BATCHER_DONE);
    for (uint64_t number = 0; batcher_files_change(&it->files, number, &change) == BATCHER_DONE; number++) {
        int file = change.in_other ? 1 - it->in_use : it->in_use;
        CHECK(change.at + (change.change == BATCHER_CHANGE_FRAME ? count : 1) <= ROOM);
        if (change.change == BATCHER_CHANGE_FRAME)
            write_at(it, file, change.at, frame, count, is_stopped);
        else if (change.change == BATCHER_CHANGE_BYTE)
            write_at(it, file, change.at, &change.byte, 1, is_stopped);
        else
            it->length[file] = change.at;
        if (*is_stopped) return 0;
    }
    CHECK(batcher_files_carried_out(&it->files) == BATCHER_DONE);
    CHECK(batcher_files_carried_out(&it->files) == BATCHER_IDLE);
    return 0;
}

/* Makes a validator. What its disk shows attests, since nothing else was written, and one that doesn't is refused. */
static int start_by(struct batcher_validator *validator, const struct batcher_validator_options *options, const uint8_t *disk,
                    uint64_t length) {
    static struct batcher_vote votes[SHOWN];
    static bool verdicts[SHOWN];
    const uint8_t *name = (const uint8_t *)"c";
    uint64_t shown = SHOWN;
    CHECK(batcher_validator_disk(options, name, 1, disk, length, votes, SHOWN, &shown) == BATCHER_DONE && shown < SHOWN);
    for (uint64_t i = 0; i < shown; i++) {
        CHECK(attests(votes[i].kind, &votes[i].proposal, &votes[i].attestation));
        verdicts[i] = true;
    }
    if (shown != 0) {
        uint64_t asked = 0;
        CHECK(batcher_validator_disk(options, name, 1, disk, length, votes, shown - 1, &asked) == BATCHER_SHORT);
        CHECK(asked == shown);
        CHECK(batcher_validator_start(validator, options, name, 1, disk, length, verdicts, shown - 1) == BATCHER_NOT_VERIFIED);
        verdicts[shown / 2] = false;
        CHECK(batcher_validator_start(validator, options, name, 1, disk, length, verdicts, shown) == BATCHER_NOT_VERIFIED);
        verdicts[shown / 2] = true;
    }
    CHECK(batcher_validator_start(validator, options, name, 1, disk, length, verdicts, shown) == BATCHER_DONE);
    return 0;
}

/* The validator that goes on by its files, or begins where they have nothing. */
static int start(uint32_t me) {
    static uint8_t disk[ROOM];
    struct validator *it = &all[me];
    struct batcher_validator_options options;
    uint64_t count = 0;
    bool turned = false, is_stopped = false;
    memset(&options, 0, sizeof options);
    options.ahead = 8;
    options.participants = VALIDATORS;
    options.participant = me;
    memset(options.keys, 7, sizeof options.keys);
    batcher_files_free(&it->files);
    uint8_t code = batcher_files_open(&it->files, it->file[0], it->length[0], it->file[1], it->length[1], &turned);
    CHECK(code == BATCHER_DONE || code == BATCHER_NOT_BEGUN);
    options.begins = code == BATCHER_NOT_BEGUN;
    it->in_use = turned;
    if (code == BATCHER_DONE) {
        int line = carry_out(it, &is_stopped);
        if (line != 0) return line;
        /* It is stopped again, while what a crash left is cut off. */
        if (is_stopped) return start(me);
        CHECK(batcher_files_bytes(&it->files, disk, sizeof disk, &count) == BATCHER_DONE);
    }
    return start_by(&it->inner, &options, disk, count);
}

/* What is owed is written, unless it is stopped before that is done. */
static int write_down(uint32_t me, bool *is_stopped) {
    static uint8_t room[ROOM];
    static uint64_t number;
    struct validator *it = &all[me];
    uint64_t count = 0;
    bool replaces = false;
    uint8_t code;
    number++;
    CHECK(batcher_validator_give(&it->inner, number, room, 1, &count, &replaces) == BATCHER_SHORT);
    CHECK(batcher_validator_wrote(&it->inner, number) == BATCHER_NOT_GIVEN);
    CHECK(batcher_validator_give(&it->inner, number, room, sizeof room, &count, &replaces) == BATCHER_DONE);
    if (it->files.at == NULL) {
        CHECK(!replaces);
        code = batcher_files_create(&it->files, it->file[0], it->length[0], it->file[1], it->length[1], room, count);
    } else if (replaces) {
        code = batcher_files_replace(&it->files, room, count);
    } else {
        code = batcher_files_append(&it->files, room, count);
    }
    CHECK(code == BATCHER_DONE && batcher_files_append(&it->files, room, count) == BATCHER_UNFINISHED);
    int line = carry_out(it, is_stopped);
    if (line != 0 || *is_stopped) return line;
    if (replaces) it->in_use = 1 - it->in_use;
    CHECK(batcher_validator_give(&it->inner, number + 1, room, sizeof room, &count, &replaces) == BATCHER_IDLE);
    CHECK(batcher_validator_wrote(&it->inner, number + 1) == BATCHER_NOT_GIVEN);
    CHECK(batcher_validator_wrote(&it->inner, number) == BATCHER_DONE);
    CHECK(batcher_validator_wrote(&it->inner, number) == BATCHER_NOT_GIVEN);
    CHECK(batcher_validator_give(&it->inner, number + 1, room, sizeof room, &count, &replaces) == BATCHER_IDLE);
    return 0;
}

static bool is_same(const struct batcher_proposal *one, const struct batcher_proposal *other) {
    return one->view == other->view && one->parent == other->parent && memcmp(one->payload, other->payload, 32) == 0;
}

/* No two votes that it sends contradict each other, whenever it sends them. */
static int note_sent(uint32_t me, const struct batcher_vote *vote) {
    struct validator *it = &all[me];
    uint64_t view = vote->proposal.view;
    CHECK(view < VIEWS && vote->attestation.signer == me && vote->kind <= BATCHER_FINALIZATION);
    if (it->did_send[vote->kind][view] && vote->kind != BATCHER_NULLIFICATION)
        CHECK(is_same(&it->sent[vote->kind][view], &vote->proposal));
    it->did_send[vote->kind][view] = true;
    it->sent[vote->kind][view] = vote->proposal;
    CHECK(!it->did_send[BATCHER_NULLIFICATION][view] || !it->did_send[BATCHER_FINALIZATION][view]);
    return 0;
}

/* What was handed out by a stamp, with a verdict on each. */
struct lent {
    uint64_t view, stamp;
    uint8_t kind;
    bool verdicts[VALIDATORS];
    size_t count;
};

/* All is handed out that is to be verified by now, and what comes last is answered first. */
static int verify(uint32_t me) {
    struct validator *it = &all[me];
    struct batcher_attestation list[VALIDATORS];
    struct batcher_step step;
    struct lent lent[LENT];
    uint64_t stamp = 0;
    size_t count = 0;
    uint8_t code;
    CHECK(batcher_validator_lend(&it->inner, &step, &stamp, list, VALIDATORS - 1) == BATCHER_SHORT);
    while ((code = batcher_validator_lend(&it->inner, &step, &stamp, list, VALIDATORS)) == BATCHER_VERIFY) {
        CHECK(count < LENT && step.listed != 0 && step.listed <= VALIDATORS);
        struct lent *one = &lent[count++];
        one->view = step.proposal.view;
        one->stamp = stamp;
        one->kind = step.kind;
        one->count = step.listed;
        for (uint64_t i = 0; i < step.listed; i++) one->verdicts[i] = attests(step.kind, &step.proposal, &list[i]);
    }
    CHECK(code == BATCHER_DONE || code == BATCHER_IDLE);
    while (count-- != 0) {
        const struct lent *one = &lent[count];
        code = batcher_validator_conclude(&it->inner, one->view, one->kind, one->stamp, one->verdicts, one->count);
        CHECK(code == BATCHER_DONE || code == BATCHER_IDLE);
    }
    return 0;
}

static int cast(uint32_t me, uint8_t kind, const struct batcher_proposal *proposal) {
    struct batcher_vote vote;
    memset(&vote, 0, sizeof vote);
    vote.proposal = *proposal;
    vote.kind = kind;
    vote.attestation = sign(me, kind, proposal);
    uint8_t code = batcher_validator_cast(&all[me].inner, &vote, attests(kind, proposal, &vote.attestation));
    CHECK(code == BATCHER_DONE || code == BATCHER_KNOWN || code == BATCHER_REFUSED);
    return 0;
}

static int perform(uint32_t me, const struct batcher_task *task) {
    struct validator *it = &all[me];
    struct batcher_proposal proposal = task->proposal;
    struct message message;
    uint64_t count = 0;
    memset(&message, 0, sizeof message);
    message.from = me;
    switch (task->task) {
    case BATCHER_TASK_BLOCK: CHECK(me == EQUIVOCATES || task->participant == EQUIVOCATES); return 0;
    case BATCHER_TASK_FINAL:
        CHECK(proposal.view > 0 && proposal.view < VIEWS);
        if (proposal.view > it->last) it->last = proposal.view;
        if (is_final[proposal.view]) CHECK(is_same(&chain[proposal.view], &proposal));
        is_final[proposal.view] = true;
        chain[proposal.view] = proposal;
        return 0;
    case BATCHER_TASK_CAST:
        CHECK(attests(task->vote.kind, &task->vote.proposal, &task->vote.attestation));
        CHECK(batcher_validator_cast(&it->inner, &task->vote, true) != BATCHER_MALFORMED);
        return 0;
    case BATCHER_TASK_SEND_VOTE:
        CHECK(note_sent(me, &task->vote) == 0);
        message.is_vote = true;
        message.vote = task->vote;
        send_all(&message);
        if (me == EQUIVOCATES && task->vote.kind == BATCHER_NOTARIZATION) {
            message.vote.proposal.payload[0] ^= 1;
            message.vote.attestation = sign(me, BATCHER_NOTARIZATION, &message.vote.proposal);
            send_all(&message);
        }
        return 0;
    case BATCHER_TASK_SEND_CERTIFICATE:
        CHECK(batcher_validator_kept(&it->inner, task->kind, &proposal, message.bytes, sizeof message.bytes, &count)
              == BATCHER_DONE);
        message.length = count;
        message.vote.kind = task->kind;
        message.vote.proposal = proposal;
        CHECK(certifies(&it->inner, &message));
        send_all(&message);
        return 0;
    case BATCHER_TASK_ENTER:
        it->view = proposal.view;
        CHECK(batcher_validator_enter(&it->inner, it->view, (uint32_t)(it->view % VALIDATORS)) == BATCHER_DONE);
        return 0;
    case BATCHER_TASK_VERIFY: return verify(me);
    case BATCHER_TASK_SIGN: return cast(me, task->kind, &proposal);
    case BATCHER_TASK_PROPOSE:
        memset(proposal.payload, (int)me, sizeof proposal.payload);
        proposal.payload[31] = (uint8_t)proposal.view;
        CHECK(batcher_validator_judge(&it->inner, &proposal, true) == BATCHER_DONE);
        return 0;
    case BATCHER_TASK_JUDGE: CHECK(batcher_validator_judge(&it->inner, &proposal, true) == BATCHER_DONE); return 0;
    /* Its certificate was sent just before, and who lacks its payload isn't in it. */
    case BATCHER_TASK_FORWARD: {
        uint32_t lacking[VALIDATORS];
        struct batcher_attestation list[VALIDATORS];
        uint64_t listed = 0;
        CHECK(batcher_validator_kept(&it->inner, BATCHER_NOTARIZATION, &proposal, message.bytes, sizeof message.bytes, &count)
              == BATCHER_DONE);
        CHECK(batcher_validator_listed(&it->inner, message.bytes, count, list, VALIDATORS, &listed) == BATCHER_VERIFY);
        uint8_t code = batcher_validator_lacking(&it->inner, &proposal, lacking, VALIDATORS, &count);
        /* After a start nothing but the notarization is known of its view. */
        if (code == BATCHER_IDLE) return 0;
        CHECK(code == BATCHER_DONE && count + listed <= VALIDATORS);
        for (uint64_t i = 0; i < count; i++)
            for (uint64_t j = 0; j < listed; j++) CHECK(lacking[i] < VALIDATORS && lacking[i] != list[j].signer);
        return 0;
    }
    default: return __LINE__;
    }
}

/* Does all that is to be done, unless it is stopped. */
static int go_on(uint32_t me, bool *is_stopped) {
    struct batcher_task task;
    *is_stopped = false;
    for (;;) {
        int line = 0;
        uint8_t code = batcher_validator_poll(&all[me].inner, &task);
        if (code == BATCHER_IDLE) return 0;
        CHECK(code == BATCHER_DONE || code == BATCHER_WRITE);
        if (code == BATCHER_WRITE)
            line = write_down(me, is_stopped);
        else
            line = perform(me, &task);
        if (line != 0) return line;
        if (below(200) == 0) *is_stopped = true;
        if (*is_stopped) return 0;
    }
}

static int hear(uint32_t me) {
    struct validator *it = &all[me];
    struct batcher_admission admission;
    size_t place = below(it->count);
    struct message message = it->inbox[place];
    it->inbox[place] = it->inbox[--it->count];
    uint8_t code;
    if (message.is_vote) {
        code = batcher_validator_vote(&it->inner, message.from, &message.vote, &admission);
    } else {
        bool verdicts[VALIDATORS];
        size_t given = verdicts_on(&it->inner, &message, verdicts);
        uint8_t wanted = batcher_validator_wants(&it->inner, message.from, message.vote.kind, &message.vote.proposal);
        code = batcher_validator_certificate(&it->inner, message.from, message.vote.kind, &message.vote.proposal,
                                             message.bytes, message.length, verdicts, given);
        CHECK(code != BATCHER_FORGED);
        CHECK(wanted == BATCHER_DONE || wanted == BATCHER_KNOWN || code == wanted);
    }
    CHECK(code == BATCHER_DONE || code == BATCHER_ELSEWHERE || code == BATCHER_DROPPED || code == BATCHER_KNOWN);
    return 0;
}

static int restart(uint32_t me) {
    /* What was on its way is lost. */
    all[me].count = 0;
    batcher_validator_free(&all[me].inner);
    return start(me);
}

static int one_network(uint64_t seed) {
    int line;
    bool is_stopped;
    state = seed;
    memset(is_final, 0, sizeof is_final);
    for (uint32_t me = 0; me < VALIDATORS; me++) {
        all[me].length[0] = all[me].length[1] = all[me].count = all[me].view = all[me].last = 0;
        for (int kind = 0; kind < 3; kind++) memset(all[me].did_send[kind], 0, VIEWS * sizeof(bool));
        if ((line = start(me)) != 0) return line;
    }
    for (int turn = 0; turn < 6000; turn++) {
        uint32_t me = (uint32_t)below(VALIDATORS);
        uint64_t what = below(400);
        if (what == 0) {
            for (uint32_t each = 0; each < VALIDATORS; each++)
                if ((line = restart(each)) != 0) return line;
        } else if (what < 4) {
            if ((line = restart(me)) != 0) return line;
        } else if (what < 24) {
            struct batcher_progress progress;
            CHECK(batcher_validator_expire(&all[me].inner, all[me].view, &progress) == BATCHER_DONE);
            CHECK(counts_votes(&progress) && (!progress.has_leader || progress.leader == all[me].view % VALIDATORS));
        } else {
            /* By fewer the inbox fills with what is sent again while nothing is final, and new votes are lost. */
            for (int heard = 0; heard < 16 && all[me].count != 0; heard++)
                if ((line = hear(me)) != 0) return line;
        }
        if ((line = go_on(me, &is_stopped)) != 0) return line;
        if (is_stopped && (line = restart(me)) != 0) return line;
    }
    for (uint32_t me = 0; me < VALIDATORS; me++) {
        CHECK(me == EQUIVOCATES || all[me].last >= 20);
        batcher_validator_free(&all[me].inner);
        batcher_files_free(&all[me].files);
        CHECK(all[me].inner.at == NULL && all[me].files.at == NULL);
    }
    return 0;
}

/* The list of the attestations of these signers. */
static size_t list_of(uint8_t *bytes, const uint32_t *signers, uint8_t signed_by, uint8_t kind,
                      const struct batcher_proposal *proposal) {
    memset(bytes, 0, 8);
    bytes[7] = signed_by;
    bytes += 8;
    for (uint8_t i = 0; i < signed_by; i++, bytes += 101) {
        struct batcher_attestation made = sign(signers[i], kind, proposal);
        memset(bytes, 0, 3);
        bytes[3] = (uint8_t)signers[i];
        bytes[4] = made.length;
        memcpy(bytes + 5, made.bytes, sizeof made.bytes);
    }
    return 8 + 101 * (size_t)signed_by;
}

/* Which bytes are the list of a quorum, and what becomes of a certificate by verdicts on one. */
static int lists(struct batcher_validator *validator) {
    static const uint32_t quorum[] = {3, 0, 2}, twice[] = {3, 0, 3}, other[] = {3, 0, VALIDATORS};
    struct batcher_attestation list[VALIDATORS];
    struct batcher_proposal proposal;
    uint8_t bytes[512];
    uint64_t count = 7;
    const bool good[] = {true, true, true};
    memset(&proposal, 0, sizeof proposal);
    proposal.view = 2;
    size_t length = list_of(bytes, quorum, 3, BATCHER_NOTARIZATION, &proposal);
    CHECK(batcher_validator_listed(validator, bytes, length, list, VALIDATORS - 1, &count) == BATCHER_SHORT);
    CHECK(batcher_validator_listed(validator, bytes, length - 1, list, VALIDATORS, &count) == BATCHER_FORGED);
    CHECK(batcher_validator_listed(validator, bytes, length + 1, list, VALIDATORS, &count) == BATCHER_FORGED);
    CHECK(batcher_validator_listed(validator, bytes, 0, list, VALIDATORS, &count) == BATCHER_FORGED && count == 7);
    CHECK(batcher_validator_listed(validator, bytes, length, list, VALIDATORS, &count) == BATCHER_VERIFY && count == 3);
    for (int i = 0; i < 3; i++)
        CHECK(list[i].signer == quorum[i] && attests(BATCHER_NOTARIZATION, &proposal, &list[i]));
    bytes[4 + 8] = BATCHER_SIGNATURE_BYTES + 1;
    CHECK(batcher_validator_listed(validator, bytes, length, list, VALIDATORS, &count) == BATCHER_FORGED);
    length = list_of(bytes, twice, 3, BATCHER_NOTARIZATION, &proposal);
    CHECK(batcher_validator_listed(validator, bytes, length, list, VALIDATORS, &count) == BATCHER_FORGED);
    length = list_of(bytes, other, 3, BATCHER_NOTARIZATION, &proposal);
    CHECK(batcher_validator_listed(validator, bytes, length, list, VALIDATORS, &count) == BATCHER_FORGED);
    length = list_of(bytes, quorum, 2, BATCHER_NOTARIZATION, &proposal);
    CHECK(batcher_validator_listed(validator, bytes, length, list, VALIDATORS, &count) == BATCHER_FORGED);
    length = list_of(bytes, quorum, 3, BATCHER_NOTARIZATION, &proposal);
    CHECK(batcher_validator_wants(validator, 0, 3, &proposal) == BATCHER_MALFORMED);
    CHECK(batcher_validator_wants(validator, 0, BATCHER_NOTARIZATION, &proposal) == BATCHER_DONE);
    CHECK(batcher_validator_wants(validator, VALIDATORS, BATCHER_NOTARIZATION, &proposal) == BATCHER_UNKNOWN);
    CHECK(batcher_validator_certificate(validator, 0, BATCHER_NOTARIZATION, &proposal, bytes, length, good, 2)
          == BATCHER_MALFORMED);
    CHECK(batcher_validator_certificate(validator, 0, BATCHER_NOTARIZATION, &proposal, bytes, length, good, 3) == BATCHER_DONE);
    CHECK(batcher_validator_wants(validator, 0, BATCHER_NOTARIZATION, &proposal) == BATCHER_KNOWN);
    proposal.epoch = 1;
    CHECK(batcher_validator_wants(validator, 0, BATCHER_NOTARIZATION, &proposal) == BATCHER_ELSEWHERE);
    return 0;
}

/* Verdicts count by the stamp of what they are on, one on each. */
static int stamps(struct batcher_validator *validator) {
    struct batcher_attestation list[VALIDATORS], before[VALIDATORS];
    struct batcher_admission admission;
    struct batcher_step step;
    struct batcher_vote vote;
    uint64_t stamp = 7;
    const uint8_t kind = BATCHER_NULLIFICATION;
    const bool good[] = {true, true, true, true};
    memset(&vote, 0, sizeof vote);
    memset(&step, 0x5a, sizeof step);
    memset(list, 0x5a, sizeof list);
    memcpy(before, list, sizeof list);
    vote.kind = kind;
    vote.proposal.view = 1;
    CHECK(batcher_validator_enter(validator, 1, 0) == BATCHER_DONE);
    for (uint32_t peer = 0; peer < VALIDATORS; peer++) {
        if (peer == 1) continue;
        vote.attestation = sign(peer, kind, &vote.proposal);
        CHECK(batcher_validator_vote(validator, peer, &vote, &admission) == BATCHER_DONE && admission.added);
    }
    CHECK(batcher_validator_lend(validator, &step, &stamp, list, VALIDATORS - 1) == BATCHER_SHORT);
    CHECK(stamp == 7 && step.listed != 3 && memcmp(list, before, sizeof list) == 0);
    CHECK(batcher_validator_conclude(validator, 1, kind, 0, good, 3) == BATCHER_STALE);
    CHECK(batcher_validator_lend(validator, &step, &stamp, list, VALIDATORS) == BATCHER_VERIFY);
    CHECK(stamp == 0 && step.listed == 3 && step.kind == kind && step.proposal.view == 1);
    for (uint64_t i = 0; i < step.listed; i++) CHECK(attests(kind, &step.proposal, &list[i]));
    /* It isn't handed out again. */
    stamp = 7;
    memcpy(before, list, sizeof list);
    CHECK(batcher_validator_lend(validator, &step, &stamp, list, VALIDATORS) == BATCHER_IDLE);
    CHECK(stamp == 7 && memcmp(list, before, sizeof list) == 0);
    CHECK(batcher_validator_conclude(validator, 1, 3, 0, good, 3) == BATCHER_MALFORMED);
    CHECK(batcher_validator_conclude(validator, 1, kind, 1, good, 3) == BATCHER_STALE);
    CHECK(batcher_validator_conclude(validator, 2, kind, 0, good, 3) == BATCHER_STALE);
    CHECK(batcher_validator_conclude(validator, 1, BATCHER_NOTARIZATION, 0, good, 3) == BATCHER_STALE);
    CHECK(batcher_validator_conclude(validator, 1, kind, 0, good, 2) == BATCHER_STALE);
    CHECK(batcher_validator_conclude(validator, 1, kind, 0, good, 4) == BATCHER_STALE);
    CHECK(batcher_validator_conclude(validator, 1, kind, 0, NULL, 0) == BATCHER_STALE);
    CHECK(batcher_validator_certified(validator, kind, &vote.proposal) == BATCHER_IDLE);
    CHECK(batcher_validator_conclude(validator, 1, kind, 0, good, 3) == BATCHER_DONE);
    CHECK(batcher_validator_certified(validator, kind, &vote.proposal) == BATCHER_DONE);
    /* By the same once more nothing is made. */
    CHECK(batcher_validator_conclude(validator, 1, kind, 0, good, 3) == BATCHER_IDLE);
    return 0;
}

/* What a caller may do wrong. */
static int mistakes(void) {
    struct batcher_validator validator = {0};
    struct batcher_validator_options options;
    struct batcher_admission admission;
    struct batcher_proposal proposal;
    struct batcher_attestation list[VALIDATORS];
    struct batcher_step step;
    struct batcher_progress progress;
    struct batcher_task task;
    struct batcher_vote vote;
    static uint8_t room[ROOM];
    uint64_t count, last, stamp;
    uint32_t lacking[1];
    bool replaces, verdicts[] = {true, true, true};
    const uint32_t signers[] = {0, 2, 3};
    memset(&options, 0, sizeof options);
    memset(&proposal, 0, sizeof proposal);
    memset(&vote, 0, sizeof vote);
    memset(&task, 0, sizeof task);
    CHECK(batcher_validator_poll(&validator, &task) == BATCHER_NONE && batcher_validator_hears(&validator, 0) == BATCHER_NONE);
    CHECK(batcher_validator_give(&validator, 0, room, ROOM, &count, &replaces) == BATCHER_NONE);
    CHECK(batcher_validator_message(&validator, 0, &proposal, room, ROOM, &count) == BATCHER_NONE);
    CHECK(batcher_validator_progress(&validator, 1, &progress) == BATCHER_NONE);
    CHECK(batcher_validator_views(&validator, &count, &last) == BATCHER_NONE);
    CHECK(batcher_validator_listed(&validator, room, 0, list, VALIDATORS, &count) == BATCHER_NONE);
    CHECK(batcher_validator_wants(&validator, 0, 0, &proposal) == BATCHER_NONE);
    CHECK(batcher_message(NULL, 0, 3, &proposal, room, ROOM, &count) == BATCHER_MALFORMED);
    CHECK(batcher_validator_lacking(&validator, &proposal, lacking, 1, &count) == BATCHER_NONE);
    CHECK(batcher_validator_lend(&validator, &step, &stamp, list, VALIDATORS) == BATCHER_NONE);
    CHECK(batcher_validator_conclude(&validator, 1, BATCHER_NOTARIZATION, 0, verdicts, 1) == BATCHER_NONE);
    CHECK(batcher_validator_start(&validator, &options, NULL, 0, NULL, 0, NULL, 0) == BATCHER_MALFORMED);
    options.participants = VALIDATORS;
    options.participant = VALIDATORS;
    options.ahead = 8;
    CHECK(batcher_validator_start(&validator, &options, NULL, 0, NULL, 0, NULL, 0) == BATCHER_MALFORMED);
    options.participant = 1;
    CHECK(batcher_validator_start(&validator, &options, NULL, 0, NULL, 0, NULL, 0) == BATCHER_NOT_BEGUN);
    CHECK(batcher_validator_start(&validator, &options, NULL, 0, (const uint8_t *)"abc", 3, NULL, 0) == BATCHER_OTHER_VERSION);
    options.begins = true;
    CHECK(batcher_validator_start(&validator, &options, NULL, 0, (const uint8_t *)"abc", 3, NULL, 0) == BATCHER_BEGUN);
    CHECK(validator.at == NULL);
    CHECK(batcher_validator_start(&validator, &options, (const uint8_t *)"c", 1, NULL, 0, NULL, 0) == BATCHER_DONE);
    /* Nothing is done before its journal is written. */
    CHECK(batcher_validator_poll(&validator, &task) == BATCHER_WRITE && batcher_validator_poll(&validator, &task) == BATCHER_WRITE);
    CHECK(batcher_validator_give(&validator, 0, room, ROOM, &count, &replaces) == BATCHER_DONE && count > 0);
    /* It is given once, and what is sent waits for it. */
    CHECK(batcher_validator_give(&validator, 1, room, ROOM, &count, &replaces) == BATCHER_IDLE);
    CHECK(batcher_validator_wrote(&validator, 1) == BATCHER_NOT_GIVEN && batcher_validator_wrote(&validator, 0) == BATCHER_DONE);
    CHECK(batcher_validator_poll(&validator, &task) == BATCHER_DONE && task.task == BATCHER_TASK_ENTER);
    CHECK(task.proposal.view == 1 && task.proposal.epoch == 0);
    CHECK(batcher_validator_poll(&validator, &task) == BATCHER_IDLE);
    /* What is signed is the namespace, with how many bytes it has, and the subject. */
    proposal.view = 5;
    CHECK(batcher_validator_message(&validator, 3, &proposal, room, ROOM, &count) == BATCHER_MALFORMED);
    CHECK(batcher_validator_message(&validator, BATCHER_FINALIZATION, &proposal, room, 65, &count) == BATCHER_SHORT);
    CHECK(count == 66);
    CHECK(batcher_validator_message(&validator, BATCHER_NULLIFICATION, &proposal, room, 26, &count) == BATCHER_DONE);
    CHECK(count == 26);
    CHECK(memcmp(room, "\0\0\0\0\0\0\0\1c\1\0\0\0\0\0\0\0\0\0\0\0\0\0\0\0\5", 26) == 0);
    proposal.view = 0;
    /* Nobody has entered a view, and nothing was said in it. */
    CHECK(batcher_validator_views(&validator, &count, &last) == BATCHER_DONE && count == 0 && last == 0);
    CHECK(batcher_validator_progress(&validator, 1, &progress) == BATCHER_DONE && !progress.has_leader && !progress.has_proposal);
    CHECK(progress.nullifies.pending + progress.nullifies.verified == 0 && !progress.nullifies.certified);
    CHECK(batcher_validator_enter(&validator, 1, 0) == BATCHER_DONE);
    CHECK(batcher_validator_views(&validator, &count, &last) == BATCHER_DONE && count == 1 && last == 0);
    CHECK(batcher_validator_progress(&validator, 1, &progress) == BATCHER_DONE && progress.has_leader && progress.leader == 0);
    vote.kind = 3;
    CHECK(batcher_validator_vote(&validator, 2, &vote, &admission) == BATCHER_MALFORMED);
    CHECK(batcher_validator_cast(&validator, &vote, true) == BATCHER_MALFORMED);
    vote.kind = BATCHER_NULLIFICATION;
    vote.proposal.view = 1;
    vote.attestation.signer = 2;
    CHECK(batcher_validator_cast(&validator, &vote, false) == BATCHER_NOT_VERIFIED);
    CHECK(batcher_validator_cast(&validator, &vote, true) == BATCHER_NOT_OWN);
    vote.attestation.signer = VALIDATORS;
    CHECK(batcher_validator_cast(&validator, &vote, true) == BATCHER_NOT_VERIFIED);
    vote.attestation.signer = 2;
    CHECK(batcher_validator_vote(&validator, VALIDATORS, &vote, &admission) == BATCHER_UNKNOWN);
    CHECK(batcher_validator_certificate(&validator, 2, 3, &proposal, room, 0, NULL, 0) == BATCHER_MALFORMED);
    proposal.view = 1;
    CHECK(batcher_validator_kept(&validator, 3, &proposal, room, ROOM, &count) == BATCHER_MALFORMED);
    CHECK(batcher_validator_kept(&validator, BATCHER_NULLIFICATION, &proposal, room, ROOM, &count) == BATCHER_IDLE);
    /* Nothing is handed out. */
    CHECK(batcher_validator_conclude(&validator, 1, 3, 0, verdicts, 1) == BATCHER_MALFORMED);
    CHECK(batcher_validator_conclude(&validator, 1, BATCHER_NOTARIZATION, 0, verdicts, 1) == BATCHER_STALE);
    CHECK(batcher_validator_conclude(&validator, 1, BATCHER_NOTARIZATION, 0, NULL, 0) == BATCHER_STALE);
    CHECK(batcher_validator_lend(&validator, &step, &stamp, list, VALIDATORS - 1) == BATCHER_SHORT);
    CHECK(batcher_validator_lend(&validator, &step, &stamp, list, VALIDATORS) == BATCHER_IDLE);
    /* A certificate that is forged blocks its peer, and a good one from beyond the window is taken in. */
    CHECK(batcher_validator_certificate(&validator, 3, BATCHER_NULLIFICATION, &proposal, room, 9, NULL, 0) == BATCHER_FORGED);
    CHECK(batcher_validator_poll(&validator, &task) == BATCHER_DONE && task.task == BATCHER_TASK_BLOCK);
    CHECK(task.participant == 3 && task.cause == BATCHER_CAUSE_CERTIFICATE);
    proposal.view = 100;
    CHECK(batcher_validator_hears(&validator, 2) == BATCHER_DONE && batcher_validator_hears(&validator, VALIDATORS) == BATCHER_DROPPED);
    size_t length = list_of(room, signers, 3, BATCHER_FINALIZATION, &proposal);
    verdicts[1] = false;
    CHECK(batcher_validator_certificate(&validator, 2, BATCHER_FINALIZATION, &proposal, room, length, verdicts, 3)
          == BATCHER_FORGED);
    CHECK(batcher_validator_hears(&validator, 2) == BATCHER_DROPPED);
    CHECK(batcher_validator_wants(&validator, 2, BATCHER_FINALIZATION, &proposal) == BATCHER_DROPPED);
    CHECK(batcher_validator_poll(&validator, &task) == BATCHER_DONE && task.task == BATCHER_TASK_BLOCK);
    CHECK(task.participant == 2 && task.cause == BATCHER_CAUSE_CERTIFICATE);
    verdicts[1] = true;
    CHECK(batcher_validator_certificate(&validator, 2, BATCHER_FINALIZATION, &proposal, room, length, verdicts, 3)
          == BATCHER_DROPPED);
    CHECK(batcher_validator_certificate(&validator, 0, BATCHER_FINALIZATION, &proposal, room, length, verdicts, 3)
          == BATCHER_DONE);
    CHECK(batcher_validator_hears(&validator, 0) == BATCHER_DONE);
    CHECK(batcher_validator_kept(&validator, BATCHER_FINALIZATION, &proposal, room, 8, &count) == BATCHER_SHORT);
    CHECK(count == length);
    CHECK(batcher_validator_certified(&validator, 3, &proposal) == BATCHER_MALFORMED);
    CHECK(batcher_validator_certified(&validator, BATCHER_NULLIFICATION, &proposal) == BATCHER_IDLE);
    CHECK(batcher_validator_certified(&validator, BATCHER_FINALIZATION, &proposal) == BATCHER_DONE);
    /* Its view is the final one, which is to be written. Until then no certificate is shown. */
    CHECK(batcher_validator_poll(&validator, &task) == BATCHER_DONE && task.task == BATCHER_TASK_FINAL);
    CHECK(batcher_validator_kept(&validator, BATCHER_FINALIZATION, &proposal, room, ROOM, &count) == BATCHER_NOT_WRITTEN);
    CHECK(batcher_validator_give(&validator, 1, room, ROOM, &count, &replaces) == BATCHER_DONE && replaces);
    CHECK(batcher_validator_kept(&validator, BATCHER_FINALIZATION, &proposal, room, ROOM, &count) == BATCHER_NOT_WRITTEN);
    CHECK(batcher_validator_wrote(&validator, 1) == BATCHER_DONE);
    CHECK(batcher_validator_kept(&validator, BATCHER_FINALIZATION, &proposal, room, ROOM, &count) == BATCHER_DONE);
    CHECK(count == length);
    /* The bytes are of another participant, of another epoch, or are damaged. */
    CHECK(batcher_validator_start(&validator, &options, (const uint8_t *)"c", 1, NULL, 0, NULL, 0) == BATCHER_DONE);
    CHECK(batcher_validator_give(&validator, 0, room, ROOM, &count, &replaces) == BATCHER_DONE);
    options.begins = false;
    CHECK(batcher_validator_start(&validator, &options, (const uint8_t *)"d", 1, room, count, NULL, 0) == BATCHER_OTHER_OWNER);
    options.epoch = 1;
    CHECK(batcher_validator_start(&validator, &options, (const uint8_t *)"c", 1, room, count, NULL, 0) == BATCHER_OTHER_OWNER);
    options.epoch = 0;
    CHECK(batcher_validator_start(&validator, &options, (const uint8_t *)"c", 1, room, count - 1, NULL, 0) == BATCHER_DAMAGED);
    CHECK(batcher_validator_start(&validator, &options, (const uint8_t *)"c", 1, room, count, NULL, 0) == BATCHER_DONE);
    batcher_validator_free(&validator);
    batcher_validator_free(&validator);
    options.begins = true;
    CHECK(batcher_validator_start(&validator, &options, (const uint8_t *)"c", 1, NULL, 0, NULL, 0) == BATCHER_DONE);
    int line = lists(&validator);
    CHECK(batcher_validator_start(&validator, &options, (const uint8_t *)"c", 1, NULL, 0, NULL, 0) == BATCHER_DONE);
    if (line == 0) line = stamps(&validator);
    batcher_validator_free(&validator);
    return line;
}

int main(int count, char **words) {
    unsigned long long seeds = 0;
    if (count != 2 || sscanf(words[1], "%llu", &seeds) != 1) return 2;
    for (uint32_t me = 0; me < VALIDATORS; me++) {
        all[me].inbox = calloc(MESSAGES, sizeof(struct message));
        for (int kind = 0; kind < 3; kind++) {
            all[me].sent[kind] = calloc(VIEWS, sizeof(struct batcher_proposal));
            all[me].did_send[kind] = calloc(VIEWS, sizeof(bool));
        }
    }
    int line = mistakes();
    uint64_t seed = 0;
    for (; line == 0 && seed < seeds; seed++) line = one_network(seed);
    if (line != 0) fprintf(stderr, "validators.c:%d: not so with seed %llu\n", line, (unsigned long long)seed - 1);
    for (uint32_t me = 0; me < VALIDATORS; me++) {
        free(all[me].inbox);
        for (int kind = 0; kind < 3; kind++) {
            free(all[me].sent[kind]);
            free(all[me].did_send[kind]);
        }
    }
    return line != 0;
}
