/* Plays the first script, three nullifies and a construction, in C. It ends with 0, or with 1 where a check fails, and
 * names its line. */
#include "votes.h"
#include <stdio.h>

#define CHECK(holds)                                                                                \
    do {                                                                                            \
        if (!(holds)) return __LINE__;                                                              \
    } while (0)

/* Where the library lists attestations and signers. */
static struct batcher_attestation known[PARTICIPANTS], list[PARTICIPANTS];
static uint32_t signers[PARTICIPANTS];

static uint8_t construct(struct batcher_round *round, struct batcher_step *step) {
    return batcher_round_try_construct(round, step, known, PARTICIPANTS, list, PARTICIPANTS, signers, PARTICIPANTS);
}

static int three_nullifies(void) {
    struct batcher_round round = {0};
    struct batcher_round_options options = {0};
    struct batcher_admission admission;
    struct batcher_step step;
    bool has = true;
    options.view = 1;
    options.participants = PARTICIPANTS;
    memset(options.keys, 7, sizeof options.keys);
    options.mode = BATCHER_RELEASING;
    options.batchable = true;
    CHECK(batcher_round_new(&round, &options) == BATCHER_DONE);
    for (uint32_t signer = 0; signer < 3; signer++) {
        struct batcher_vote vote = vote_of(BATCHER_NULLIFICATION, 1, signer, 0);
        CHECK(batcher_round_add_network(&round, signer, &vote, &admission) == BATCHER_DONE);
        CHECK(admission.added && admission.block == BATCHER_BLOCK_NONE);
        CHECK(admission.report == BATCHER_REPORT_NULLIFY);
        CHECK(admission.first.attestation.signer == signer && admission.first.attestation.length == 64);
        CHECK(admission.first.proposal.view == 1 && admission.first.kind == BATCHER_NULLIFICATION);
    }
    CHECK(batcher_round_has_certificate(&round, BATCHER_NULLIFICATION, &has) == BATCHER_DONE && !has);
    /* What is to be verified is handed out, all at once. */
    CHECK(construct(&round, &step) == BATCHER_VERIFY);
    CHECK(step.listed == 3 && step.verified == 0 && step.kind == BATCHER_NULLIFICATION);
    CHECK(step.proposal.epoch == 0 && step.proposal.view == 1);
    for (uint32_t place = 0; place < 3; place++)
        CHECK(list[place].signer == place && list[place].bytes[63] == place + 1);
    const bool verdicts[] = {true, true, true};
    CHECK(batcher_round_record_verdicts(&round, step.kind, &step.proposal, list, 3, verdicts, 3) == BATCHER_DONE);
    CHECK(construct(&round, &step) == BATCHER_DONE);
    CHECK(step.processed == 3 && step.invalid == 0 && !step.fallback);
    CHECK(step.certified && step.kind == BATCHER_NULLIFICATION && step.listed == 3);
    CHECK(batcher_round_has_certificate(&round, BATCHER_NULLIFICATION, &has) == BATCHER_DONE && has);
    CHECK(construct(&round, &step) == BATCHER_IDLE);
    batcher_round_free(&round);
    CHECK(round.at == NULL);
    return 0;
}

int main(void) {
    int line = three_nullifies();
    if (line != 0) fprintf(stderr, "first.c:%d: not so\n", line);
    return line != 0;
}
