/* A validator alone, whose own vote is a quorum, with each request for memory refused in turn: the
 * call that made it says so, and made again it goes on as if nothing had been. It is stopped in the
 * middle, and goes on by its disk. Then one of four, with verdicts on votes of the others. It ends
 * with 0, or with 1 where a check failed, and says at which request. */
#include "refusing.h"
#include "votes.h"

#define LAST 4
#define ROOM 16384
#define SHOWN 64

struct alone {
    struct batcher_validator validator;
    struct batcher_validator_options options;
    uint8_t disk[ROOM], room[ROOM];
    size_t written;
    uint64_t last;
};

static bool start(struct alone *it) {
    static struct batcher_vote votes[SHOWN];
    static bool verdicts[SHOWN];
    const uint8_t *name = (const uint8_t *)"c";
    uint64_t shown = 0;
    uint8_t code;
    it->options.begins = it->written == 0;
    code = AGAIN(batcher_validator_disk(&it->options, name, 1, it->disk, it->written, votes, SHOWN, &shown));
    if (code != BATCHER_DONE) return false;
    for (uint64_t i = 0; i < shown; i++) verdicts[i] = true;
    return AGAIN(batcher_validator_start(&it->validator, &it->options, name, 1, it->disk, it->written, verdicts, shown))
        == BATCHER_DONE;
}

static bool write_down(struct alone *it) {
    uint64_t count = 0;
    bool replaces = false;
    uint8_t code;
    if (batcher_validator_give(&it->validator, 0, it->room, ROOM, &count, &replaces) != BATCHER_DONE) return false;
    if (replaces) it->written = 0;
    if (it->written + count > ROOM) return false;
    memcpy(it->disk + it->written, it->room, count);
    it->written += count;
    return AGAIN(batcher_validator_wrote(&it->validator, 0)) == BATCHER_DONE;
}

static bool cast(struct alone *it, const struct batcher_task *task) {
    uint8_t code;
    struct batcher_vote vote = task->vote;
    if (task->task == BATCHER_TASK_SIGN) {
        vote = vote_of(task->kind, task->proposal.view, 0, 0);
        vote.proposal = task->proposal;
    }
    code = AGAIN(batcher_validator_cast(&it->validator, &vote, true));
    return code == BATCHER_DONE || code == BATCHER_KNOWN;
}

/* Nothing is handed out, since its own votes alone count. */
static bool verify(struct alone *it) {
    struct batcher_attestation list[1];
    struct batcher_step step;
    uint64_t stamp;
    uint8_t code = AGAIN(batcher_validator_lend(&it->validator, &step, &stamp, list, 1));
    return code == BATCHER_DONE || code == BATCHER_IDLE;
}

static bool perform(struct alone *it, const struct batcher_task *task) {
    uint8_t code;
    switch (task->task) {
    case BATCHER_TASK_FINAL: it->last = task->proposal.view; return true;
    case BATCHER_TASK_ENTER: return AGAIN(batcher_validator_enter(&it->validator, task->proposal.view, 0)) == BATCHER_DONE;
    case BATCHER_TASK_VERIFY: return verify(it);
    case BATCHER_TASK_CAST:
    case BATCHER_TASK_SIGN: return cast(it, task);
    case BATCHER_TASK_PROPOSE: return batcher_validator_judge(&it->validator, &task->proposal, true) == BATCHER_DONE;
    case BATCHER_TASK_SEND_VOTE:
    case BATCHER_TASK_SEND_CERTIFICATE:
    case BATCHER_TASK_FORWARD: return true;
    default: return false;
    }
}

static bool go_on(struct alone *it, uint64_t last) {
    struct batcher_task task;
    uint8_t code;
    memset(&task, 0, sizeof task);
    while (it->last < last) {
        code = AGAIN(batcher_validator_poll(&it->validator, &task));
        if (code == BATCHER_WRITE ? !write_down(it) : code != BATCHER_DONE || !perform(it, &task)) return false;
    }
    return true;
}

static int play(const void *sort) {
    static struct alone it;
    (void)sort;
    memset(&it, 0, sizeof it);
    it.options.ahead = 4;
    it.options.participants = 1;
    bool fine = start(&it) && go_on(&it, LAST / 2);
    batcher_validator_free(&it.validator);
    it.last = 0;
    fine = fine && start(&it) && go_on(&it, LAST);
    batcher_validator_free(&it.validator);
    return fine && it.validator.at == NULL;
}

/* What is handed out of two views is handed out once, and its verdicts come in the other order. */
static bool hears_others(struct alone *it) {
    struct batcher_attestation list[PARTICIPANTS];
    struct batcher_admission admission;
    struct batcher_step step;
    const bool good[] = {true, true, true};
    uint64_t first = 0, second = 0;
    uint8_t code = AGAIN(batcher_validator_enter(&it->validator, 1, 0));
    if (code != BATCHER_DONE) return false;
    for (uint64_t view = 1; view <= 2; view++)
        for (uint32_t peer = 1; peer < PARTICIPANTS; peer++) {
            struct batcher_vote vote = vote_of(BATCHER_NULLIFICATION, view, peer, 0);
            if (AGAIN(batcher_validator_vote(&it->validator, peer, &vote, &admission)) != BATCHER_DONE) return false;
        }
    if (AGAIN(batcher_validator_lend(&it->validator, &step, &first, list, PARTICIPANTS)) != BATCHER_VERIFY
        || step.proposal.view != 1 || step.listed != 3)
        return false;
    if (AGAIN(batcher_validator_lend(&it->validator, &step, &second, list, PARTICIPANTS)) != BATCHER_VERIFY
        || step.proposal.view != 2 || step.listed != 3)
        return false;
    if (AGAIN(batcher_validator_lend(&it->validator, &step, &first, list, PARTICIPANTS)) != BATCHER_IDLE) return false;
    return AGAIN(batcher_validator_conclude(&it->validator, 2, BATCHER_NULLIFICATION, second, good, 3)) == BATCHER_IDLE
        && AGAIN(batcher_validator_conclude(&it->validator, 1, BATCHER_NULLIFICATION, first, good, 3)) == BATCHER_DONE;
}

static int play_one_of_four(const void *sort) {
    static struct alone it;
    (void)sort;
    memset(&it, 0, sizeof it);
    it.options.ahead = 4;
    it.options.participants = PARTICIPANTS;
    bool fine = start(&it) && hears_others(&it);
    batcher_validator_free(&it.validator);
    return fine;
}

int main(void) {
    return each_refused_in_turn("a validator", play, NULL) || each_refused_in_turn("one of four", play_one_of_four, NULL);
}
