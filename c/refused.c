/* A round's script with each request for memory refused in turn: the call that made it says so, and made again it goes on
 * as if nothing had been. It ends with 0, or with 1 where a check failed, and says at which request. */
#include "refusing.h"
#include "votes.h"

#define NOBODY UINT32_MAX

struct sort {
    uint8_t mode;
    bool aggregates;
};

/* The next batch, where the attestation of `bad` alone is found not to attest. Where the scheme aggregates, a quorum is
 * verified as a whole. */
static uint8_t construct(struct batcher_round *round, const struct sort *of, struct batcher_step *step,
                         uint32_t *signers, uint32_t bad) {
    struct batcher_attestation all[2 * PARTICIPANTS];
    for (;;) {
        struct batcher_attestation known[PARTICIPANTS], list[PARTICIPANTS];
        uint8_t code = AGAIN(batcher_round_try_construct(round, step, known, PARTICIPANTS, list, PARTICIPANTS, signers,
                                                         PARTICIPANTS));
        if (code != BATCHER_VERIFY) return code;
        if (of->aggregates && bad == NOBODY) {
            size_t count = step->verified + step->listed;
            memcpy(all, known, step->verified * sizeof *all);
            memcpy(all + step->verified, list, step->listed * sizeof *all);
            return AGAIN(batcher_round_construct_together(round, step->kind, &step->proposal, all, count, step));
        }
        bool verdicts[PARTICIPANTS];
        for (uint64_t place = 0; place < step->listed; place++) verdicts[place] = list[place].signer != bad;
        code = AGAIN(batcher_round_record_verdicts(round, step->kind, &step->proposal, list, step->listed, verdicts,
                                                   step->listed));
        if (code != BATCHER_DONE) return BATCHER_NONE;
    }
}

/* The leader notarizes one proposal and three others another, which a finalization fixes. One of the nullifies is bad. */
static int play(const void *sort) {
    const struct sort *of = sort;
    uint8_t mode = of->mode;
    struct batcher_round round = {0};
    struct batcher_admission admission;
    struct batcher_step step;
    struct batcher_vote vote;
    uint32_t signers[PARTICIPANTS];
    uint64_t count = 0;
    uint8_t code;
    const uint8_t bytes[] = {1, 2, 3};
    bool anew = true, fine;

    struct batcher_round_options options = {0};
    options.view = 1;
    options.participants = PARTICIPANTS;
    options.mode = mode;
    options.batchable = true;
    fine = AGAIN(batcher_round_new(&round, &options)) == BATCHER_DONE;
    fine = fine && AGAIN(batcher_round_set_leader(&round, 0)) == BATCHER_DONE;
    for (uint32_t signer = 0; fine && signer < PARTICIPANTS; signer++) {
        vote = vote_of(BATCHER_NOTARIZATION, 1, signer, signer == 0 ? 1 : 2);
        if (signer == 3) {
            fine = AGAIN(batcher_round_accept_vote(&round, &vote, true, &admission)) == BATCHER_DONE
                && admission.added;
        } else {
            fine = AGAIN(batcher_round_add_network(&round, signer, &vote, &admission)) == BATCHER_DONE
                && admission.added;
        }
    }
    fine = fine && AGAIN(batcher_round_record_certificate(&round, BATCHER_FINALIZATION, &vote.proposal, bytes, 3, &anew))
        == BATCHER_DONE && !anew;
    /* They come back, and make a notarization. A round of a skipped view makes none. */
    fine = fine && construct(&round, of, &step, signers, NOBODY) == (mode == BATCHER_SKIPPED ? BATCHER_IDLE : BATCHER_DONE);
    fine = fine && (mode == BATCHER_SKIPPED || (step.processed == 3 && step.certified && step.listed == 3));
    for (uint32_t signer = 0; fine && signer < 3; signer++) {
        vote = vote_of(BATCHER_NULLIFICATION, 1, signer, 0);
        fine = AGAIN(batcher_round_add_network(&round, signer, &vote, &admission)) == BATCHER_DONE && admission.added;
    }
    if (fine && mode != BATCHER_SKIPPED)
        fine = construct(&round, of, &step, signers, vote.attestation.signer) == BATCHER_DONE && step.processed == 3
            && step.invalid == 1 && signers[0] == 2 && !step.certified;
    fine = fine && AGAIN(batcher_round_missing_voters(&round, &vote.proposal, signers, PARTICIPANTS, &count))
        == BATCHER_DONE;
    batcher_round_free(&round);
    return fine && round.at == NULL;
}

int main(void) {
    for (uint8_t mode = BATCHER_RETAINING; mode <= BATCHER_SKIPPED; mode++)
        for (int aggregates = 0; aggregates < 2; aggregates++) {
            struct sort sort = {mode, aggregates};
            char what[40];
            snprintf(what, sizeof what, "mode %d, aggregates %d", mode, aggregates);
            if (each_refused_in_turn(what, play, &sort)) return 1;
        }
    return 0;
}
