/* Rounds over signatures as bytes, in C: verdicts that come late, a quorum as a whole, other keys, and what a caller may
 * do wrong. It ends with 0, or with 1 where a check fails, and names its line. */
#include "batcher.h"
#include <stdio.h>
#include <string.h>

#define PARTICIPANTS 4
#define CHECK(holds)                                                                                \
    do {                                                                                            \
        if (!(holds)) return __LINE__;                                                              \
    } while (0)

static struct batcher_attestation known[PARTICIPANTS], list[PARTICIPANTS];
static uint32_t signers[PARTICIPANTS];

static uint8_t construct(struct batcher_round *round, struct batcher_step *step) {
    return batcher_round_try_construct(round, step, known, PARTICIPANTS, list, PARTICIPANTS, signers, PARTICIPANTS);
}

static uint8_t record(struct batcher_round *round, const struct batcher_step *step, const bool *verdicts,
                      size_t count) {
    return batcher_round_record_verdicts(round, step->kind, &step->proposal, list, count, verdicts, count);
}

static uint8_t open_round(struct batcher_round *round, uint8_t key, uint8_t mode, bool batchable) {
    struct batcher_round_options options;
    memset(&options, 0, sizeof options);
    options.view = 1;
    options.participants = PARTICIPANTS;
    memset(options.keys, key, sizeof options.keys);
    options.mode = mode;
    options.batchable = batchable;
    return batcher_round_new(round, &options);
}

/* A signature is these 64 bytes. What comes after them is left as it was, and counts for nothing. */
static struct batcher_vote nullify(uint32_t signer, uint8_t byte) {
    struct batcher_vote vote;
    memset(&vote, 0, sizeof vote);
    vote.proposal.view = 1;
    vote.attestation.signer = signer;
    vote.attestation.length = 64;
    memset(vote.attestation.bytes, byte, sizeof vote.attestation.bytes);
    vote.kind = BATCHER_NULLIFICATION;
    return vote;
}

static struct batcher_vote notarize(uint32_t signer, uint8_t byte, uint8_t payload) {
    struct batcher_vote vote = nullify(signer, byte);
    memset(vote.proposal.payload, payload, sizeof vote.proposal.payload);
    vote.kind = BATCHER_NOTARIZATION;
    return vote;
}

/* Three votes come, and a fourth one while they are verified: its verdict alone is wanted then. */
static int late_verdicts(void) {
    struct batcher_round round = {0};
    struct batcher_admission admission;
    struct batcher_step step;
    struct batcher_vote vote;
    bool has = true;
    const bool good[] = {true, true, true};
    CHECK(open_round(&round, 7, BATCHER_RELEASING, true) == BATCHER_DONE);
    for (uint32_t signer = 0; signer < 3; signer++) {
        vote = nullify(signer, (uint8_t)(10 + signer));
        CHECK(batcher_round_add_network(&round, signer, &vote, &admission) == BATCHER_DONE);
        CHECK(admission.added && admission.block == BATCHER_BLOCK_NONE);
        CHECK(admission.report == BATCHER_REPORT_NULLIFY && admission.first.attestation.length == 64);
        CHECK(memcmp(admission.first.attestation.bytes, vote.attestation.bytes, 64) == 0);
    }
    CHECK(construct(&round, &step) == BATCHER_VERIFY);
    CHECK(step.listed == 3 && step.verified == 0 && step.kind == BATCHER_NULLIFICATION && step.proposal.view == 1);
    CHECK(list[1].signer == 1 && list[1].length == 64 && list[1].bytes[63] == 11);
    vote = nullify(3, 13);
    CHECK(batcher_round_add_network(&round, 3, &vote, &admission) == BATCHER_DONE && admission.added);
    CHECK(record(&round, &step, good, 3) == BATCHER_DONE);
    /* Verdicts that are recorded aren't wanted again, and can't be recorded again. */
    CHECK(record(&round, &step, good, 3) == BATCHER_STALE);
    CHECK(construct(&round, &step) == BATCHER_VERIFY && step.listed == 1 && list[0].signer == 3);
    const bool bad[] = {false};
    CHECK(record(&round, &step, bad, 1) == BATCHER_DONE);
    CHECK(construct(&round, &step) == BATCHER_DONE);
    CHECK(step.processed == 4 && step.invalid == 1 && signers[0] == 3 && step.fallback);
    CHECK(step.certified && step.kind == BATCHER_NULLIFICATION && step.listed == 3);
    for (uint32_t place = 0; place < 3; place++)
        CHECK(list[place].signer == place && list[place].length == 64 && list[place].bytes[0] == 10 + place);
    CHECK(batcher_round_has_certificate(&round, BATCHER_NULLIFICATION, &has) == BATCHER_DONE && has);
    CHECK(construct(&round, &step) == BATCHER_IDLE);
    batcher_round_free(&round);
    CHECK(round.at == NULL);
    return 0;
}

/* An own vote is known to attest. With it a quorum passes as a whole. */
static int together(void) {
    struct batcher_round round = {0};
    struct batcher_admission admission;
    struct batcher_proposal proposal;
    struct batcher_step step;
    struct batcher_attestation all[PARTICIPANTS];
    CHECK(open_round(&round, 7, BATCHER_RETAINING, true) == BATCHER_DONE);
    CHECK(batcher_round_set_leader(&round, 1) == BATCHER_DONE);
    CHECK(batcher_round_set_leader(&round, 2) == BATCHER_LEADER_CHANGED);
    struct batcher_vote vote = notarize(0, 20, 1);
    CHECK(batcher_round_accept_vote(&round, &vote, false, &admission) == BATCHER_NOT_VERIFIED);
    CHECK(batcher_round_accept_vote(&round, &vote, true, &admission) == BATCHER_DONE && admission.added);
    CHECK(batcher_round_accept_vote(&round, &vote, true, &admission) == BATCHER_DUPLICATE_NOTARIZE);
    for (uint32_t signer = 1; signer < 3; signer++) {
        vote = notarize(signer, (uint8_t)(20 + signer), 1);
        CHECK(batcher_round_add_network(&round, signer, &vote, &admission) == BATCHER_DONE && admission.added);
    }
    CHECK(batcher_round_proposal(&round, &proposal) == BATCHER_DONE && proposal.payload[31] == 1);
    CHECK(batcher_round_try_forward_proposal(&round, 1, &proposal) == BATCHER_IDLE);
    CHECK(batcher_round_try_forward_proposal(&round, 0, &proposal) == BATCHER_DONE);
    CHECK(batcher_round_try_forward_proposal(&round, 0, &proposal) == BATCHER_IDLE);
    CHECK(construct(&round, &step) == BATCHER_VERIFY && step.verified == 1 && step.listed == 2);
    all[0] = known[0];
    all[1] = list[0];
    all[2] = list[1];
    /* A part of them, or another order, isn't what the construction is about. */
    CHECK(batcher_round_construct_together(&round, step.kind, &step.proposal, all, 2, &step) == BATCHER_STALE);
    CHECK(batcher_round_construct_together(&round, step.kind, &step.proposal, all + 1, 2, &step) == BATCHER_STALE);
    CHECK(batcher_round_construct_together(&round, step.kind, &step.proposal, all, 3, &step) == BATCHER_DONE);
    CHECK(step.certified && step.listed == 3 && step.processed == 2 && !step.fallback && step.invalid == 0);
    CHECK(construct(&round, &step) == BATCHER_IDLE);
    batcher_round_free(&round);
    return 0;
}

/* A repeat is nothing, whatever is after its bytes. One byte more is another signature. */
static int repeats(void) {
    struct batcher_round round = {0};
    struct batcher_admission admission;
    bool anew = false, has = false;
    uint64_t count = 9;
    struct batcher_vote vote = notarize(1, 7, 1);
    CHECK(open_round(&round, 7, BATCHER_RETAINING, false) == BATCHER_DONE);
    CHECK(batcher_round_add_network(&round, 1, &vote, &admission) == BATCHER_DONE && admission.added);
    memset(vote.attestation.bytes + 64, 99, 32);
    CHECK(batcher_round_add_network(&round, 1, &vote, &admission) == BATCHER_DONE);
    CHECK(!admission.added && admission.block == BATCHER_BLOCK_NONE);
    vote.attestation.length = 65;
    CHECK(batcher_round_add_network(&round, 1, &vote, &admission) == BATCHER_DONE);
    CHECK(!admission.added && admission.block == BATCHER_BLOCK_INVALID_SIGNATURE);
    vote = notarize(1, 8, 2);
    CHECK(batcher_round_add_network(&round, 1, &vote, &admission) == BATCHER_DONE);
    CHECK(admission.block == BATCHER_BLOCK_CONFLICTING_NOTARIZE);
    CHECK(admission.report == BATCHER_REPORT_CONFLICTING_NOTARIZE);
    CHECK(admission.first.attestation.bytes[0] == 7 && admission.second.attestation.bytes[0] == 8);
    CHECK(batcher_round_add_network(&round, 2, &vote, &admission) == BATCHER_DONE);
    CHECK(admission.block == BATCHER_BLOCK_NOTARIZE_SIGNER_MISMATCH);
    CHECK(batcher_round_add_network(&round, UINT64_MAX, &vote, &admission) == BATCHER_DONE);
    CHECK(admission.block == BATCHER_BLOCK_UNKNOWN_PARTICIPANT);
    vote = notarize(1, 7, 1);
    CHECK(batcher_round_missing_voters(&round, &vote.proposal, signers, PARTICIPANTS, &count) == BATCHER_DONE);
    CHECK(count == 3 && signers[0] == 0 && signers[1] == 2 && signers[2] == 3);
    CHECK(batcher_round_missing_voters(&round, &vote.proposal, signers, 0, &count) == BATCHER_DONE && count == 3);
    CHECK(batcher_round_is_missing_voter(&round, &vote.proposal, 1, &has) == BATCHER_DONE && !has);
    const uint8_t bytes[] = {1, 2, 3};
    CHECK(batcher_round_record_certificate(&round, BATCHER_NOTARIZATION, &vote.proposal, bytes, 3, &anew)
          == BATCHER_DONE);
    CHECK(anew && batcher_round_has_certificate(&round, BATCHER_NOTARIZATION, &has) == BATCHER_DONE && has);
    batcher_round_free(&round);
    return 0;
}

/* Two votes convict their signer if both attest, each by its own verdict: also where their bytes are the same. */
static int convictions(void) {
    uint8_t keys[32];
    uint32_t signer = 9;
    struct batcher_vote first = notarize(2, 5, 1), second = notarize(2, 5, 2);
    memset(keys, 7, sizeof keys);
    CHECK(batcher_convicted(PARTICIPANTS, keys, &first, &second, true, false, &signer) == BATCHER_IDLE);
    CHECK(batcher_convicted(PARTICIPANTS, keys, &first, &second, false, true, &signer) == BATCHER_IDLE && signer == 9);
    CHECK(batcher_convicted(PARTICIPANTS, keys, &first, &second, true, true, &signer) == BATCHER_DONE && signer == 2);
    CHECK(batcher_convicted(2, keys, &first, &second, true, true, &signer) == BATCHER_IDLE);
    second.kind = BATCHER_NULLIFICATION;
    CHECK(batcher_convicted(PARTICIPANTS, keys, &first, &second, true, true, &signer) == BATCHER_IDLE);
    first.kind = BATCHER_FINALIZATION;
    CHECK(batcher_convicted(PARTICIPANTS, keys, &first, &second, true, true, &signer) == BATCHER_DONE);
    CHECK(batcher_convicted(PARTICIPANTS, keys, &second, &first, true, true, &signer) == BATCHER_DONE);
    second.attestation.signer = 1;
    CHECK(batcher_convicted(PARTICIPANTS, keys, &first, &second, true, true, &signer) == BATCHER_IDLE);
    second.kind = 3;
    CHECK(batcher_convicted(PARTICIPANTS, keys, &first, &second, true, true, &signer) == BATCHER_MALFORMED);
    return 0;
}

static int mistakes(void) {
    struct batcher_round round = {0};
    struct batcher_vote vote = nullify(0, 1);
    struct batcher_admission admission;
    struct batcher_step step;
    uint32_t leader = 9;
    bool flag = false;
    const bool good[] = {true, true};
    for (int code = BATCHER_DONE; code <= BATCHER_SHORT; code++)
        CHECK(strcmp(batcher_code_text((uint8_t)code), batcher_code_text(255)) != 0);
    CHECK(batcher_round_add_network(&round, 0, &vote, &admission) == BATCHER_NONE);
    CHECK(construct(&round, &step) == BATCHER_NONE);
    CHECK(open_round(&round, 7, 9, true) == BATCHER_MALFORMED && round.at == NULL);
    CHECK(open_round(&round, 7, BATCHER_RETAINING, false) == BATCHER_DONE);
    CHECK(batcher_round_leader(&round, &leader) == BATCHER_IDLE && leader == 9);
    vote.attestation.length = BATCHER_SIGNATURE_BYTES + 1;
    CHECK(batcher_round_add_network(&round, 0, &vote, &admission) == BATCHER_MALFORMED);
    vote.attestation.length = BATCHER_SIGNATURE_BYTES;
    vote.proposal.view = 2;
    CHECK(batcher_round_add_network(&round, 0, &vote, &admission) == BATCHER_ELSEWHERE);
    vote.proposal.view = 1;
    vote.kind = 3;
    CHECK(batcher_round_add_network(&round, 0, &vote, &admission) == BATCHER_MALFORMED);
    CHECK(batcher_round_has_certificate(&round, 3, &flag) == BATCHER_MALFORMED);
    vote.kind = BATCHER_NULLIFICATION;
    CHECK(batcher_round_add_network(&round, 0, &vote, &admission) == BATCHER_DONE && admission.added);
    CHECK(construct(&round, &step) == BATCHER_VERIFY && step.listed == 1);
    /* More verdicts than attestations, a signer that takes no part, an own vote of one that doesn't, another kind. */
    CHECK(batcher_round_record_verdicts(&round, step.kind, &step.proposal, list, 1, good, 2) == BATCHER_MALFORMED);
    CHECK(batcher_round_record_verdicts(&round, 3, &step.proposal, list, 1, good, 1) == BATCHER_MALFORMED);
    list[0].signer = PARTICIPANTS;
    CHECK(record(&round, &step, good, 1) == BATCHER_MALFORMED);
    list[0].signer = 1;
    CHECK(record(&round, &step, good, 1) == BATCHER_STALE);
    vote.attestation.signer = PARTICIPANTS;
    CHECK(batcher_round_accept_vote(&round, &vote, true, &admission) == BATCHER_NOT_VERIFIED);
    /* Lists that a construction might not fit into are refused before it is made. */
    CHECK(batcher_round_try_construct(&round, &step, NULL, 0, NULL, 0, NULL, 0) == BATCHER_SHORT);
    CHECK(batcher_round_try_construct(&round, &step, NULL, 0, list, PARTICIPANTS - 1, signers, PARTICIPANTS)
          == BATCHER_SHORT);
    CHECK(batcher_round_try_construct(&round, &step, NULL, 0, list, PARTICIPANTS, signers, PARTICIPANTS - 1)
          == BATCHER_SHORT);
    CHECK(batcher_round_try_construct(&round, &step, NULL, 0, list, PARTICIPANTS, signers, PARTICIPANTS)
          == BATCHER_VERIFY);
    CHECK(step.listed == 1);
    batcher_round_free(&round);
    batcher_round_free(&round);
    CHECK(batcher_round_set_leader(&round, 1) == BATCHER_NONE);
    return 0;
}

int main(void) {
    int line = late_verdicts();
    if (line == 0) line = together();
    if (line == 0) line = repeats();
    if (line == 0) line = convictions();
    if (line == 0) line = mistakes();
    if (line != 0) fprintf(stderr, "rounds.c:%d: not so\n", line);
    return line != 0;
}
