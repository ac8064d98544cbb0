/* The votes of the programs over rounds and nodes, and of those in which memory is refused. */
#ifndef VOTES_H
#define VOTES_H

#include "batcher.h"
#include <string.h>

#define PARTICIPANTS 4

/* A vote of a view of epoch 0. Its signature is a good one: these 64 bytes, which are the same for equal votes, and others
 * for others. */
static inline struct batcher_vote vote_of(uint8_t kind, uint64_t view, uint32_t signer, uint8_t payload) {
    struct batcher_vote vote;
    memset(&vote, 0, sizeof vote);
    vote.proposal.view = view;
    if (kind != BATCHER_NULLIFICATION) memset(vote.proposal.payload, payload, sizeof vote.proposal.payload);
    vote.attestation.signer = signer;
    vote.attestation.length = 64;
    vote.attestation.bytes[0] = (uint8_t)view;
    vote.attestation.bytes[1] = kind;
    vote.attestation.bytes[2] = payload;
    vote.attestation.bytes[63] = (uint8_t)(signer + 1);
    vote.kind = kind;
    return vote;
}

#endif
