/* Rounds, validators and files under any order of calls, sizes and bytes, by seeds 0, 1, .. up to the one that is named, while memory is refused
 * now and then. What is answered is compared with what holds of every call, and each certificate with the votes that were
 * handed in. It ends with 0, or with 1 where a check fails, and names its line and the seed. */
#include "batcher.h"
#include <stdio.h>
#include <stdlib.h>
#include <string.h>

#define MOST 7
#define DISK 65536
#define SHOWN 1024
#define LENT 32
#define CHECK(holds)                                                                                \
    do {                                                                                            \
        if (!(holds)) return __LINE__;                                                              \
    } while (0)

static uint64_t state;

/* How many certificates were made by single verdicts and as a whole, votes were bad, calls were out
 * of memory, and how often validators made constructions, took in late verdicts, refused stale ones,
 * and cast votes. */
static uint64_t certified, passed, bad, out_of_memory, concluded, late, stale, signed_votes;

/* A number below a bound. */
static uint64_t below(uint64_t bound) {
    state = state * 6364136223846793005u + 1442695040888963407u;
    return (state >> 33) % bound;
}

/* Whether memory may be refused in this call, and whether it was. */
static bool may_refuse, refused;

static bool refuses(void) {
    if (!may_refuse || below(4) != 0) return false;
    refused = true;
    return true;
}

static void *tried_malloc(size_t size) { return refuses() ? NULL : malloc(size); }

static void *tried_realloc(void *at, size_t size) { return refuses() ? NULL : realloc(at, size); }

#define malloc tried_malloc
#define realloc tried_realloc
#include "heap.c"
#undef malloc
#undef realloc

/* A call is out of memory only where memory was refused in it. */
#define MADE(code)                                                                                  \
    do {                                                                                            \
        if ((code) == BATCHER_OUT_OF_MEMORY) {                                                      \
            CHECK(refused);                                                                         \
            out_of_memory++;                                                                        \
            return 0;                                                                               \
        }                                                                                           \
    } while (0)

/* As a rule one of those that mean something, and sometimes any. */
static uint32_t mostly_below(uint32_t bound) { return below(20) != 0 ? (uint32_t)below(bound) : (uint32_t)below(300); }

/* A signature is good where its first byte isn't 0. So a verdict depends on the bytes alone. */
static bool attests(const struct batcher_attestation *it) { return it->length != 0 && it->bytes[0] != 0; }

static struct batcher_proposal any_proposal(void) {
    struct batcher_proposal proposal;
    memset(&proposal, 0, sizeof proposal);
    proposal.epoch = below(20) == 0;
    proposal.view = below(20) != 0;
    proposal.payload[0] = (uint8_t)below(2);
    return proposal;
}

static struct batcher_attestation any_attestation(uint32_t participants) {
    struct batcher_attestation it;
    memset(&it, (int)below(3), sizeof it);
    it.signer = mostly_below(participants);
    it.length = below(20) != 0 ? 64 : (uint8_t)below(256);
    if (it.bytes[0] == 0 && below(4) != 0) it.bytes[0] = 1;
    return it;
}

static struct batcher_vote any_vote(uint32_t participants) {
    struct batcher_vote vote;
    vote.proposal = any_proposal();
    vote.attestation = any_attestation(participants);
    vote.kind = (uint8_t)mostly_below(3);
    return vote;
}

/* Of a certificate: a quorum of different participants, who attest each. */
static int quorum(const struct batcher_step *step, uint64_t view, const struct batcher_attestation *list,
                  uint32_t participants) {
    CHECK(step->kind <= BATCHER_FINALIZATION && step->proposal.epoch == 0 && step->proposal.view == view);
    CHECK(step->listed >= participants - (participants - 1) / 3 && step->listed <= participants);
    for (uint64_t i = 0; i < step->listed; i++) {
        CHECK(list[i].signer < participants && attests(&list[i]));
        for (uint64_t j = 0; j < i; j++) CHECK(list[i].signer != list[j].signer);
    }
    return 0;
}

/* All that the construction looks at, as a whole, where the list has room for it and all attest. Where a verdict is
 * recorded on a part of it, the list isn't all of it. */
static int together(struct batcher_round *round, const struct batcher_step *wanted,
                    const struct batcher_attestation *known, size_t known_room,
                    const struct batcher_attestation *list, size_t room, uint32_t participants) {
    struct batcher_attestation all[MOST];
    struct batcher_step step;
    size_t count = 0;
    if (wanted->verified > known_room || wanted->listed > room) return 0;
    for (size_t i = 0; i < wanted->verified; i++) all[count++] = known[i];
    for (size_t i = 0; i < wanted->listed; i++) all[count++] = list[i];
    for (size_t i = 0; i < count; i++)
        if (!attests(&all[i])) return 0;
    uint8_t code = batcher_round_construct_together(round, wanted->kind, &wanted->proposal, all, count, &step);
    MADE(code);
    CHECK(code == BATCHER_DONE || code == BATCHER_STALE);
    CHECK(code == BATCHER_STALE || (step.certified && step.listed == count && step.invalid == 0));
    passed += code == BATCHER_DONE;
    return code == BATCHER_DONE ? quorum(&step, 1, all, participants) : 0;
}

/* The next construction with rooms of any size. What was written is right, and the rest as it was. */
static int construct(struct batcher_round *round, uint32_t participants, bool answers) {
    struct batcher_attestation known[MOST], list[MOST], before;
    uint32_t signers[MOST];
    bool verdicts[MOST];
    struct batcher_step step;
    size_t known_room = below(3) != 0 ? MOST : below(MOST), room = below(3) != 0 ? MOST : below(MOST);
    size_t signers_room = below(3) != 0 ? MOST : below(MOST);
    memset(list, 0x5a, sizeof list);
    memset(known, 0x5a, sizeof known);
    memset(&step, 0, sizeof step);
    before = list[0];
    uint8_t code = batcher_round_try_construct(round, &step, known, known_room, list, room, signers, signers_room);
    CHECK((code == BATCHER_SHORT) == (round->at != NULL && (room < participants || signers_room < participants)));
    if (code == BATCHER_VERIFY) {
        CHECK(step.listed >= 1 && step.listed + step.verified <= participants);
        for (size_t i = step.listed; i < MOST; i++) CHECK(memcmp(&list[i], &before, sizeof before) == 0);
        size_t count = step.listed;
        for (size_t i = 0; i < count; i++) verdicts[i] = attests(&list[i]);
        for (size_t i = 0; i < step.verified && i < known_room; i++) CHECK(attests(&known[i]));
        if (!answers) return together(round, &step, known, known_room, list, room, participants);
        if (count > 1) count = 1 + below(count);
        code = batcher_round_record_verdicts(round, step.kind, &step.proposal, list, count, verdicts, count);
        MADE(code);
        CHECK(code == BATCHER_DONE);
        return 0;
    }
    if (code == BATCHER_DONE) {
        CHECK(step.processed <= participants && step.invalid <= participants);
        for (size_t i = 0; i < step.invalid; i++) CHECK(signers[i] < participants);
        bad += step.invalid;
        certified += step.certified;
        return step.certified ? quorum(&step, 1, list, participants) : 0;
    }
    CHECK(code == BATCHER_IDLE || code == BATCHER_SHORT || code == BATCHER_OUT_OF_MEMORY || code == BATCHER_NONE);
    for (size_t i = 0; i < MOST; i++) CHECK(memcmp(&list[i], &before, sizeof before) == 0);
    MADE(code);
    return 0;
}

/* A call that isn't about what the construction is about: any list, with true verdicts. */
static int record_any(struct batcher_round *round, uint32_t participants) {
    struct batcher_attestation list[MOST];
    bool verdicts[MOST];
    struct batcher_step step;
    struct batcher_proposal proposal = any_proposal();
    size_t count = below(MOST + 1);
    uint8_t kind = (uint8_t)mostly_below(3);
    bool all = true;
    for (size_t i = 0; i < count; i++) {
        list[i] = any_attestation(participants);
        verdicts[i] = attests(&list[i]);
        all = all && verdicts[i];
    }
    size_t given = below(10) != 0 ? count : below(MOST + 1);
    uint8_t code = batcher_round_record_verdicts(round, kind, &proposal, list, count, verdicts, given);
    MADE(code);
    CHECK(code == BATCHER_DONE || code == BATCHER_STALE || code == BATCHER_MALFORMED);
    CHECK(given == count || code == BATCHER_MALFORMED);
    if (!all) return 0;
    code = batcher_round_construct_together(round, kind, &proposal, list, count, &step);
    MADE(code);
    CHECK(code == BATCHER_DONE || code == BATCHER_STALE || code == BATCHER_MALFORMED);
    CHECK(code != BATCHER_DONE || (step.certified && step.listed == count));
    return 0;
}

static int questions(struct batcher_round *round, uint32_t participants) {
    uint32_t leader = 0, missing[MOST];
    uint64_t count = 0;
    bool flag = false;
    struct batcher_proposal proposal = any_proposal();
    size_t room = below(MOST + 1);
    CHECK(batcher_round_leader(round, &leader) <= BATCHER_IDLE);
    CHECK(batcher_round_has_nullify(round, (uint32_t)below(300), &flag) == BATCHER_DONE);
    CHECK(batcher_round_is_missing_voter(round, &proposal, (uint32_t)below(300), &flag) == BATCHER_DONE);
    uint8_t code = batcher_round_missing_voters(round, &proposal, missing, room, &count);
    MADE(code);
    CHECK(code == BATCHER_DONE && count <= participants);
    for (size_t i = 1; i < count && i < room; i++) CHECK(missing[i - 1] < missing[i] && missing[i] < participants);
    uint8_t kind = (uint8_t)mostly_below(3);
    CHECK((batcher_round_has_certificate(round, kind, &flag) == BATCHER_MALFORMED) == (kind > 2));
    code = batcher_round_try_forward_proposal(round, mostly_below(participants), &proposal);
    CHECK(code == BATCHER_DONE || code == BATCHER_IDLE);
    return 0;
}

static int one_call(struct batcher_round *round, uint32_t participants) {
    struct batcher_admission admission;
    struct batcher_vote vote = any_vote(participants);
    uint8_t bytes[8] = {0}, code;
    bool anew = false;
    may_refuse = below(4) == 0;
    refused = false;
    memset(&admission, 0x5a, sizeof admission);
    struct batcher_admission untouched = admission;
    switch (below(9)) {
    case 0:
    case 1:
    case 2:
        code = batcher_round_add_network(round, below(10) != 0 ? vote.attestation.signer : below(300), &vote, &admission);
        CHECK(code == BATCHER_DONE || memcmp(&admission, &untouched, sizeof untouched) == 0);
        MADE(code);
        CHECK((code == BATCHER_MALFORMED) == (vote.kind > 2 || vote.attestation.length > BATCHER_SIGNATURE_BYTES));
        if (code == BATCHER_DONE && admission.added) CHECK(admission.block == BATCHER_BLOCK_NONE);
        return 0;
    case 3:
        code = batcher_round_accept_vote(round, &vote, attests(&vote.attestation), &admission);
        CHECK(code == BATCHER_DONE || memcmp(&admission, &untouched, sizeof untouched) == 0);
        MADE(code);
        if (code == BATCHER_DONE) CHECK(attests(&vote.attestation) && vote.attestation.signer < participants);
        return 0;
    case 4:
        code = batcher_round_set_leader(round, mostly_below(participants));
        CHECK(code == BATCHER_DONE || code == BATCHER_LEADER_CHANGED);
        return 0;
    case 5:
        if (below(10) != 0) return questions(round, participants);
        code = batcher_round_record_certificate(round, (uint8_t)mostly_below(3), &vote.proposal, bytes, below(9), &anew);
        MADE(code);
        CHECK(code == BATCHER_DONE || code == BATCHER_ELSEWHERE || code == BATCHER_MALFORMED);
        return 0;
    case 6: return record_any(round, participants);
    default: return construct(round, participants, below(4) != 0);
    }
}

static int one_round(uint64_t seed) {
    struct batcher_round round = {0};
    struct batcher_round_options options;
    state = seed;
    memset(&options, 0, sizeof options);
    options.view = 1;
    options.participants = 1 + (uint32_t)below(MOST);
    options.mode = (uint8_t)below(3);
    options.batchable = below(2) != 0;
    CHECK(one_call(&round, 1) == 0 || round.at == NULL);
    may_refuse = false;
    CHECK(batcher_round_new(&round, &options) == BATCHER_DONE);
    for (int calls = 0; calls < 200; calls++) {
        int line = one_call(&round, options.participants);
        if (line != 0) return line;
    }
    void *at = round.at;
    may_refuse = below(2) != 0;
    refused = false;
    uint8_t code = batcher_round_new(&round, &options);
    CHECK(code == BATCHER_DONE || (code == BATCHER_OUT_OF_MEMORY && refused && round.at == at));
    batcher_round_free(&round);
    CHECK(round.at == NULL);
    return 0;
}

/* What is owed is written, into a room of any size first. */
static int write_down(struct batcher_validator *validator, uint8_t *disk, size_t *written) {
    static uint8_t room[DISK];
    uint64_t count = 0, number = below(3);
    size_t tried = below(200);
    bool replaces = false;
    uint8_t code = batcher_validator_give(validator, number, room, tried, &count, &replaces);
    CHECK(code == BATCHER_IDLE || (code == BATCHER_SHORT) == (tried < count));
    if (code == BATCHER_SHORT) code = batcher_validator_give(validator, number, room, sizeof room, &count, &replaces);
    CHECK(code == BATCHER_DONE || code == BATCHER_IDLE);
    if (code == BATCHER_IDLE) return 0;
    CHECK(batcher_validator_give(validator, number, room, sizeof room, &count, &replaces) == BATCHER_IDLE);
    if (replaces) *written = 0;
    CHECK(*written + count <= DISK);
    memcpy(disk + *written, room, count);
    *written += count;
    do {
        code = batcher_validator_wrote(validator, number);
        CHECK(code == BATCHER_DONE || (code == BATCHER_OUT_OF_MEMORY && refused));
    } while (code != BATCHER_DONE);
    CHECK(batcher_validator_give(validator, number, room, sizeof room, &count, &replaces) == BATCHER_IDLE);
    return 0;
}

/* What was handed out by a stamp, with true verdicts on it. */
struct lent {
    uint64_t view, stamp;
    uint8_t kind;
    bool verdicts[MOST];
    size_t count;
};

/* What a validator has handed out that is to be answered yet, and how many stamps it has given. */
static struct lent lent[LENT];
static size_t kept;
static uint64_t stamps;

/* What is to be verified is handed out, into a list of any size. Stamps count from 0, and nothing
 * is written where nothing is handed out. */
static int lend_in(struct batcher_validator *validator, uint32_t participants) {
    struct batcher_attestation list[MOST], before[MOST];
    struct batcher_step step, untouched;
    size_t room = below(3) != 0 ? MOST : below(MOST);
    uint64_t stamp = UINT64_MAX;
    memset(list, 0x5a, sizeof list);
    memcpy(before, list, sizeof list);
    memset(&step, 0x5a, sizeof step);
    memcpy(&untouched, &step, sizeof step);
    uint8_t code = batcher_validator_lend(validator, &step, &stamp, list, room);
    CHECK((code == BATCHER_SHORT) == (room < participants));
    if (code != BATCHER_VERIFY) {
        CHECK(stamp == UINT64_MAX && memcmp(&step, &untouched, sizeof step) == 0 && memcmp(list, before, sizeof list) == 0);
        MADE(code);
        CHECK(code == BATCHER_DONE || code == BATCHER_IDLE || code == BATCHER_SHORT);
        concluded += code == BATCHER_DONE;
        return 0;
    }
    CHECK(stamp == stamps && step.listed != 0 && step.listed <= participants && step.kind <= BATCHER_FINALIZATION);
    for (size_t i = step.listed; i < MOST; i++) CHECK(memcmp(&list[i], &before[i], sizeof *list) == 0);
    stamps++;
    if (kept == LENT) kept--;
    struct lent *it = &lent[kept++];
    memset(it, 0, sizeof *it);
    it->view = step.proposal.view;
    it->stamp = stamp;
    it->kind = step.kind;
    it->count = step.listed;
    for (size_t i = 0; i < it->count; i++) it->verdicts[i] = attests(&list[i]);
    return 0;
}

/* Verdicts on what was handed out, mostly on the last of it. Sometimes they come by a stamp that
 * isn't given yet, of another kind or view, or there isn't one on each. What is fresh was handed out
 * just now, so it is awaited. */
static int conclude_in(struct batcher_validator *validator, bool is_fresh) {
    if (kept == 0) return 0;
    size_t place = below(3) != 0 ? kept - 1 : below(kept);
    struct lent it = lent[place];
    uint64_t view = it.view, stamp = it.stamp;
    uint8_t kind = it.kind;
    size_t given = it.count;
    switch (below(16)) {
    case 0: stamp = stamps + below(3); break;
    case 1: kind = (uint8_t)mostly_below(3); break;
    case 2: view = below(6); break;
    case 3: given = below(MOST + 1); break;
    }
    bool is_right = view == it.view && kind == it.kind && stamp == it.stamp && given == it.count;
    is_fresh = is_fresh && it.stamp + 1 == stamps;
    uint8_t code = batcher_validator_conclude(validator, view, kind, stamp, it.verdicts, given);
    CHECK((code == BATCHER_MALFORMED) == (kind > BATCHER_FINALIZATION));
    CHECK(is_right ? !is_fresh || code != BATCHER_STALE : code == BATCHER_STALE || code == BATCHER_MALFORMED);
    MADE(code);
    CHECK(code == BATCHER_DONE || code == BATCHER_IDLE || code == BATCHER_STALE || code == BATCHER_MALFORMED);
    concluded += code == BATCHER_DONE;
    stale += code == BATCHER_STALE;
    late += !is_fresh && (code == BATCHER_DONE || code == BATCHER_IDLE);
    /* Now and then the same comes twice. */
    if (is_right && below(8) != 0) lent[place] = lent[--kept];
    return 0;
}

/* A task is done, or isn't. */
static int poll_once(struct batcher_validator *validator, uint32_t me, uint8_t *disk, size_t *written) {
    struct batcher_task task;
    struct batcher_vote vote;
    memset(&task, 0x5a, sizeof task);
    uint8_t code = batcher_validator_poll(validator, &task);
    MADE(code);
    CHECK(code == BATCHER_DONE || code == BATCHER_WRITE || code == BATCHER_IDLE);
    if (code == BATCHER_WRITE) return write_down(validator, disk, written);
    if (code == BATCHER_IDLE || below(20) == 0) return 0;
    CHECK(task.task <= BATCHER_TASK_FORWARD);
    switch (task.task) {
    case BATCHER_TASK_ENTER:
        CHECK(batcher_validator_enter(validator, task.proposal.view, UINT32_MAX) == BATCHER_UNKNOWN);
        code = batcher_validator_enter(validator, task.proposal.view, 0);
        MADE(code);
        CHECK(code == BATCHER_DONE || code == BATCHER_LEADER_CHANGED);
        return 0;
    case BATCHER_TASK_SIGN:
        memset(&vote, 0, sizeof vote);
        vote.kind = task.kind;
        vote.proposal = task.proposal;
        vote.attestation.signer = me;
        vote.attestation.length = 64;
        memset(vote.attestation.bytes, 1, 64);
        code = batcher_validator_cast(validator, &vote, true);
        MADE(code);
        signed_votes += code == BATCHER_DONE;
        return 0;
    case BATCHER_TASK_PROPOSE:
    case BATCHER_TASK_JUDGE: CHECK(batcher_validator_judge(validator, &task.proposal, below(5) != 0) == BATCHER_DONE); return 0;
    default: return 0;
    }
}

/* Bytes that are the list of a quorum, as a rule. */
static size_t any_list(uint8_t *bytes, uint32_t participants) {
    uint32_t quorum = participants - (participants - 1) / 3, first = (uint32_t)below(participants);
    uint32_t count = quorum + (uint32_t)below(participants - quorum + 1);
    if (below(8) == 0) count = (uint32_t)below(MOST + 1);
    memset(bytes, 0, 8 + 101 * MOST);
    bytes[7] = (uint8_t)count;
    for (uint32_t i = 0; i < count; i++) {
        uint8_t *at = bytes + 8 + 101 * i;
        at[3] = (uint8_t)(below(30) != 0 ? (first + i) % participants : below(participants + 1));
        at[4] = (uint8_t)(below(50) != 0 ? 1 : below(100));
        at[5] = (uint8_t)(below(50) != 0);
    }
    size_t length = 8 + 101 * count;
    return below(10) != 0 ? length : below(length);
}

/* A certificate is taken in by verdicts on what its bytes list. */
static int certificate_of(struct batcher_validator *validator, uint32_t participants, uint64_t peer, const struct batcher_vote *vote) {
    uint8_t bytes[8 + 101 * MOST], wanted = batcher_validator_wants(validator, peer, vote->kind, &vote->proposal);
    struct batcher_attestation list[MOST];
    bool verdicts[MOST], all = true, is_heard = batcher_validator_hears(validator, peer) == BATCHER_DONE;
    uint64_t listed = 0, given;
    size_t length = any_list(bytes, participants);
    uint8_t code = batcher_validator_listed(validator, bytes, length, list, MOST, &listed);
    MADE(code);
    CHECK(code == BATCHER_VERIFY || (code == BATCHER_FORGED && listed == 0));
    CHECK(listed <= participants && (listed == 0 || length == 8 + 101 * listed));
    for (uint64_t i = 0; i < listed; i++) {
        for (uint64_t j = 0; j < i; j++) CHECK(list[i].signer != list[j].signer);
        verdicts[i] = attests(&list[i]);
        all = all && verdicts[i];
    }
    given = listed == 0 || below(20) != 0 ? listed : below(listed);
    code = batcher_validator_certificate(validator, peer, vote->kind, &vote->proposal, bytes, length, verdicts, given);
    MADE(code);
    CHECK((code == BATCHER_MALFORMED) == (vote->kind > 2 || given != listed));
    if (code == BATCHER_MALFORMED) return 0;
    CHECK(is_heard == (code != BATCHER_DROPPED && code != BATCHER_UNKNOWN));
    CHECK(wanted == BATCHER_DONE || wanted == BATCHER_KNOWN || code == wanted);
    CHECK(code != BATCHER_DONE || (listed != 0 && all));
    if (code == BATCHER_FORGED) CHECK((listed == 0 || !all) && batcher_validator_hears(validator, peer) == BATCHER_DROPPED);
    return 0;
}

static int one_validator_call(struct batcher_validator *validator, uint32_t participants, uint32_t me, uint8_t *disk, size_t *written) {
    struct batcher_progress progress;
    struct batcher_admission admission;
    struct batcher_vote vote = any_vote(participants);
    uint8_t room[8], message[80], code;
    uint64_t count = 0, peer = below(10) != 0 ? vote.attestation.signer : below(300);
    may_refuse = below(4) == 0;
    refused = false;
    vote.proposal.view = below(6);
    vote.proposal.parent = below(6);
    memset(&admission, 0x5a, sizeof admission);
    switch (below(13)) {
    case 0:
    case 1:
    case 2:
        code = batcher_validator_vote(validator, peer, &vote, &admission);
        MADE(code);
        CHECK((code == BATCHER_MALFORMED) == (vote.kind > 2 || vote.attestation.length > BATCHER_SIGNATURE_BYTES));
        CHECK((code == BATCHER_UNKNOWN) == (code != BATCHER_MALFORMED && peer >= participants));
        return 0;
    case 3:
        code = batcher_validator_cast(validator, &vote, attests(&vote.attestation));
        MADE(code);
        if (code == BATCHER_DONE) CHECK(attests(&vote.attestation) && vote.attestation.signer == me);
        return 0;
    case 4:
        vote.proposal.view = below(20);
        return certificate_of(validator, participants, peer, &vote);
    case 5:
        code = batcher_validator_kept(validator, vote.kind, &vote.proposal, room, sizeof room, &count);
        CHECK((code == BATCHER_MALFORMED) == (vote.kind > 2));
        CHECK(code != BATCHER_SHORT || count > sizeof room);
        CHECK(batcher_validator_certified(validator, vote.kind, &vote.proposal) != BATCHER_IDLE || code == BATCHER_IDLE
              || code == BATCHER_NOT_WRITTEN);
        return 0;
    case 6: {
        struct batcher_progress asked;
        uint64_t view = below(8), last;
        CHECK(batcher_validator_progress(validator, view, &asked) == BATCHER_DONE);
        CHECK(batcher_validator_expire(validator, view, &progress) == BATCHER_DONE);
        CHECK(asked.has_leader == progress.has_leader && asked.has_proposal == progress.has_proposal);
        CHECK(asked.notarizes.pending == progress.notarizes.pending);
        CHECK(asked.nullifies.verified == progress.nullifies.verified);
        CHECK(asked.finalizes.certified == progress.finalizes.certified);
        CHECK(batcher_validator_views(validator, &view, &last) == BATCHER_DONE && last <= view);
        return 0;
    }
    case 7:
        code = batcher_validator_message(validator, vote.kind, &vote.proposal, message, below(sizeof message), &count);
        CHECK((code == BATCHER_MALFORMED) == (vote.kind > 2));
        if (code == BATCHER_DONE) CHECK(count == (vote.kind == BATCHER_NULLIFICATION ? 26 : 66));
        return 0;
    case 8: {
        uint64_t given = stamps;
        int line = lend_in(validator, participants);
        return line != 0 || below(3) == 0 ? line : conclude_in(validator, given != stamps);
    }
    default: return poll_once(validator, me, disk, written);
    }
}

static int one_validator(uint64_t seed) {
    static struct batcher_vote votes[SHOWN];
    static bool verdicts[SHOWN];
    static uint8_t disk[DISK];
    struct batcher_validator validator = {0};
    struct batcher_validator_options options;
    size_t written = 0;
    state = seed;
    may_refuse = false;
    kept = 0;
    stamps = 0;
    memset(&options, 0, sizeof options);
    options.participants = 1 + (uint32_t)below(MOST);
    options.participant = (uint32_t)below(options.participants);
    options.ahead = below(4);
    options.track_historical_votes = below(2) != 0;
    options.begins = true;
    CHECK(batcher_validator_wrote(&validator, 0) == BATCHER_NONE);
    struct batcher_validator_options beyond = options;
    beyond.ahead = BATCHER_MOST_AHEAD + 1;
    CHECK(batcher_validator_start(&validator, &beyond, (const uint8_t *)"c", 1, NULL, 0, NULL, 0) == BATCHER_MALFORMED);
    beyond = options;
    beyond.participants = BATCHER_MOST_PARTICIPANTS + 1;
    CHECK(batcher_validator_start(&validator, &beyond, (const uint8_t *)"c", 1, NULL, 0, NULL, 0) == BATCHER_MALFORMED);
    CHECK(batcher_validator_start(&validator, &options, (const uint8_t *)"c", 1, NULL, 0, NULL, 0) == BATCHER_DONE);
    for (int calls = 0; calls < 200; calls++) {
        int line = one_validator_call(&validator, options.participants, options.participant, disk, &written);
        if (line != 0) return line;
    }
    /* It goes on by its disk alone, once memory isn't refused. */
    options.begins = written == 0;
    may_refuse = below(2) != 0;
    refused = false;
    uint64_t shown = 0;
    uint8_t code = batcher_validator_disk(&options, (const uint8_t *)"c", 1, disk, written, votes, SHOWN, &shown);
    CHECK(code == BATCHER_DONE || (code == BATCHER_OUT_OF_MEMORY && refused && shown == 0));
    for (uint64_t i = 0; i < shown; i++) {
        CHECK(votes[i].kind <= BATCHER_FINALIZATION && votes[i].attestation.signer < options.participants);
        CHECK(attests(&votes[i].attestation));
        verdicts[i] = true;
    }
    bool is_given = code == BATCHER_DONE, is_good = true;
    if (is_given && shown != 0 && below(4) == 0) {
        is_good = false;
        if (below(2) != 0)
            verdicts[below(shown)] = false;
        else
            shown--;
    }
    refused = false;
    code = batcher_validator_start(&validator, &options, (const uint8_t *)"c", 1, disk, written, verdicts, shown);
    CHECK(code == BATCHER_OUT_OF_MEMORY ? refused : !is_given || (code == BATCHER_DONE) == is_good);
    CHECK(code == BATCHER_DONE || code == BATCHER_NOT_VERIFIED || code == BATCHER_OUT_OF_MEMORY);
    batcher_validator_free(&validator);
    CHECK(validator.at == NULL);
    return 0;
}

/* Two files, with what is to have been written to them. */
struct pair {
    uint8_t file[2][DISK], wanted[DISK];
    size_t length[2], count;
    int in_use;
};

/* Does what is to be done to the files. */
static int carry_out(struct batcher_files *files, struct pair *it) {
    static uint8_t frame[DISK];
    struct batcher_change change;
    uint64_t count = 0, number = 0;
    CHECK(batcher_files_frame(files, frame, sizeof frame, &count) == BATCHER_DONE);
    for (; batcher_files_change(files, number, &change) == BATCHER_DONE; number++) {
        int file = change.in_other ? 1 - it->in_use : it->in_use;
        if (change.change == BATCHER_CHANGE_LENGTH) {
            it->length[file] = change.at;
            continue;
        }
        const uint8_t *bytes = change.change == BATCHER_CHANGE_FRAME ? frame : &change.byte;
        size_t length = change.change == BATCHER_CHANGE_FRAME ? count : 1;
        CHECK(change.at <= it->length[file] && change.at + length <= DISK);
        memcpy(it->file[file] + change.at, bytes, length);
        if (it->length[file] < change.at + length) it->length[file] = change.at + length;
    }
    CHECK(number >= 2 && batcher_files_carried_out(files) == BATCHER_DONE);
    return 0;
}

/* Bytes are written, or memory is refused and nothing is to be done. */
static int write_some(struct batcher_files *files, struct pair *it) {
    uint8_t bytes[64];
    size_t length = below(sizeof bytes);
    bool replaces = below(3) == 0;
    memset(bytes, (int)below(256), sizeof bytes);
    may_refuse = below(2) == 0;
    refused = false;
    uint8_t code = replaces ? batcher_files_replace(files, bytes, length) : batcher_files_append(files, bytes, length);
    may_refuse = false;
    MADE(code);
    CHECK(code == BATCHER_DONE && batcher_files_append(files, bytes, length) == BATCHER_UNFINISHED);
    if (replaces) it->count = 0;
    memcpy(it->wanted + it->count, bytes, length);
    it->count += length;
    int line = carry_out(files, it);
    if (replaces) it->in_use = 1 - it->in_use;
    return line;
}

static int one_pair(uint64_t seed) {
    static struct pair it;
    static uint8_t found[DISK];
    struct batcher_files files = {0};
    uint64_t count = 0;
    bool turned = false;
    state = seed;
    may_refuse = false;
    memset(&it, 0, sizeof it);
    /* Any bytes are opened, or aren't. */
    for (int file = 0; file < 2; file++) {
        it.length[file] = below(4) == 0 ? 0 : below(80);
        for (size_t i = 0; i < it.length[file]; i++) it.file[file][i] = below(3) != 0 ? 0xff : (uint8_t)below(256);
    }
    uint8_t code = batcher_files_open(&files, it.file[0], it.length[0], it.file[1], it.length[1], &turned);
    CHECK(code == BATCHER_DONE || code == BATCHER_NOT_BEGUN || code == BATCHER_DAMAGED);
    CHECK(code == BATCHER_DONE || (files.at == NULL && batcher_files_append(&files, found, 1) == BATCHER_NONE));
    it.length[0] = it.length[1] = 0;
    CHECK(batcher_files_create(&files, it.file[0], 0, it.file[1], 0, found, 0) == BATCHER_DONE);
    int line = carry_out(&files, &it);
    for (int calls = 0; line == 0 && calls < 20; calls++) {
        line = write_some(&files, &it);
        if (line == 0 && below(3) == 0) {
            code = batcher_files_open(&files, it.file[0], it.length[0], it.file[1], it.length[1], &turned);
            CHECK(code == BATCHER_DONE && turned == it.in_use);
            line = carry_out(&files, &it);
        }
        CHECK(batcher_files_bytes(&files, found, sizeof found, &count) == BATCHER_DONE);
        CHECK(count == it.count && memcmp(found, it.wanted, count) == 0);
    }
    batcher_files_free(&files);
    CHECK(files.at == NULL);
    return line;
}

int main(int count, char **words) {
    unsigned long long seeds = 0;
    if (count != 2 || sscanf(words[1], "%llu", &seeds) != 1) return 2;
    for (uint64_t seed = 0; seed < seeds; seed++) {
        int line = one_round(seed);
        if (line == 0) line = one_validator(seed);
        if (line == 0) line = one_pair(seed);
        if (line != 0) {
            fprintf(stderr, "fuzz.c:%d: not so with seed %llu\n", line, (unsigned long long)seed);
            return 1;
        }
    }
    /* Where none of these comes up, nothing was tried. */
    return seeds != 0 && (certified < seeds / 8 || passed < seeds / 40 || bad < seeds / 16 || out_of_memory < seeds
                         || concluded < seeds / 8 || late < seeds / 200 || stale < seeds / 200 || signed_votes < seeds / 8);
}
