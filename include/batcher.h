/* Rounds and validators of a verified vote batcher, over signatures as bytes. Link libbatcher_ffi.a, and what
 * defines `rattle_alloc`, `rattle_dealloc` and `rattle_realloc` below, as c/heap.c does.
 *
 * What a caller owes, which nothing here can test:
 *   - a handle, a `struct batcher_round`, `batcher_validator` or `batcher_files`, begins as {0}, is in one call at
 *     a time, on one thread, and its pointer is neither copied nor written;
 *   - each pointer is to a live value of its type that nobody else writes meanwhile, or to as many as
 *     the length after it says; a `bool` is 0 or 1; pointers that are written through don't overlap;
 *   - a verdict is true: of a signature of that participant on that subject, by the keys of the round
 *     or validator;
 *   - verdicts that are handed to a validator by a stamp are on what that one handed out, and not an
 *     earlier one: each `batcher_validator_start` counts stamps from 0 anew.
 * All else is tested: on an empty handle, for a code that means nothing, for a length that is too large
 * and for a vote of another round a call answers a code, and changes nothing. The index of a
 * round's leader alone isn't looked at, and nor is whether a view is final. */
#ifndef BATCHER_H
#define BATCHER_H

#include <stdbool.h>
#include <stddef.h>
#include <stdint.h>

#ifdef __cplusplus
extern "C" {
#endif

/* The most bytes that a signature may have: enough for Ed25519, and for both groups of BLS. */
#define BATCHER_SIGNATURE_BYTES 96

struct batcher_round {
    void *at; /* null: none */
};

struct batcher_validator {
    void *at; /* null: none */
};

struct batcher_files {
    void *at; /* null: none */
};

/* What calls answer. */
enum batcher_code {
    BATCHER_DONE, /* of a construction: a batch was made */
    BATCHER_NONE, /* the handle is empty */
    BATCHER_MALFORMED, /* a code, a length or a number that is out of bounds, or a signer that takes no part */
    BATCHER_ELSEWHERE, /* of another round, or of a view outside of the window */
    BATCHER_OUT_OF_MEMORY, /* all is as it was, but that an own vote may be written, and verdicts
                            * may be taken in: call again */
    BATCHER_LEADER_CHANGED, /* another leader was named before */
    BATCHER_NOT_VERIFIED, /* an own vote that doesn't attest, or whose signer takes no part, or one of the disk */
    BATCHER_DUPLICATE_NOTARIZE, /* a notarize of its signer is kept */
    BATCHER_DUPLICATE_FINALIZE, /* a finalize of its signer is kept */
    BATCHER_CONFLICTING, /* an earlier vote of its kind and signer was for another proposal */
    BATCHER_NULLIFY_AFTER_FINALIZE, /* its signer has finalized before */
    BATCHER_FINALIZE_AFTER_NULLIFY, /* its signer has nullified before */
    BATCHER_IDLE, /* nothing is to be done, or there is none */
    BATCHER_VERIFY, /* verdicts are wanted on the attestations of the list */
    BATCHER_STALE, /* something else is asked about, or by another stamp: none of it is taken in */
    BATCHER_DROPPED, /* of a peer that was blocked before, so it wasn't looked at */
    BATCHER_UNKNOWN, /* of a peer or a leader that takes no part, so it wasn't looked at */
    BATCHER_PASSED, /* the view is before the finalized one */
    BATCHER_KNOWN, /* one of its kind was there, so it isn't to be sent, or wasn't looked at */
    BATCHER_FORGED, /* the certificate doesn't certify what it names, and its peer is blocked */
    BATCHER_SHORT, /* a list or a room has too few places, so nothing changed */
    BATCHER_WRITE, /* what is owed to the disk is to be written first */
    BATCHER_FULL, /* the journal has no room left */
    BATCHER_CLOSED, /* the journal is closed: start again by what is on the disk */
    BATCHER_NOT_OWN, /* a vote that another participant signed isn't cast */
    BATCHER_SIGNED, /* its subject was signed before, by other bytes */
    BATCHER_REFUSED, /* a rule of voting refuses it */
    BATCHER_NOT_BEGUN, /* there are no bytes to start by */
    BATCHER_BEGUN, /* there are bytes, so nothing begins */
    BATCHER_OTHER_VERSION, /* the bytes are of another version of this library */
    BATCHER_OTHER_OWNER, /* they are of another participant, epoch or namespace, or of other keys */
    BATCHER_DAMAGED, /* they are no journal, or have what wasn't written so */
    BATCHER_UNFINISHED, /* what is to be done to the files already is to be done first */
    BATCHER_NOT_WRITTEN, /* it waits until the disk has all that was done: ask again after the write */
    BATCHER_NOT_GIVEN /* no write is under way by this number, so nothing changed */
};

enum batcher_kind { BATCHER_NOTARIZATION, BATCHER_NULLIFICATION, BATCHER_FINALIZATION };

/* How long votes are kept in full: to the end, until their kind is certified, or never. */
enum batcher_mode { BATCHER_RETAINING, BATCHER_RELEASING, BATCHER_SKIPPED };

/* Why the sender of a vote is to be blocked, if it is. */
enum batcher_block {
    BATCHER_BLOCK_NONE,
    BATCHER_BLOCK_UNKNOWN_PARTICIPANT,
    BATCHER_BLOCK_NOTARIZE_SIGNER_MISMATCH,
    BATCHER_BLOCK_NULLIFY_SIGNER_MISMATCH,
    BATCHER_BLOCK_FINALIZE_SIGNER_MISMATCH,
    BATCHER_BLOCK_CONFLICTING_NOTARIZE,
    BATCHER_BLOCK_CONFLICTING_NULLIFY,
    BATCHER_BLOCK_CONFLICTING_FINALIZE,
    BATCHER_BLOCK_INVALID_SIGNATURE,
    BATCHER_BLOCK_NULLIFY_AFTER_FINALIZE,
    BATCHER_BLOCK_FINALIZE_AFTER_NULLIFY
};

/* Why a validator blocks a participant, if it does: for a vote, as by `enum batcher_block`, or for one of
 * these, which leave room for more reasons. */
enum batcher_cause {
    BATCHER_CAUSE_NONE,
    BATCHER_CAUSE_CERTIFICATE = 64, /* it sent one that doesn't certify */
    BATCHER_CAUSE_SIGNATURE /* it sent a vote that doesn't attest */
};

/* What a report is of, if there is one. */
enum batcher_report {
    BATCHER_REPORT_NONE,
    BATCHER_REPORT_NOTARIZE,
    BATCHER_REPORT_NULLIFY,
    BATCHER_REPORT_FINALIZE,
    BATCHER_REPORT_CONFLICTING_NOTARIZE, /* the first is the earlier one */
    BATCHER_REPORT_CONFLICTING_FINALIZE, /* the first is the earlier one */
    BATCHER_REPORT_NULLIFY_FINALIZE /* the first is the nullify */
};

/* What a validator has to do, by the members of `struct batcher_task` that it is said in. */
enum batcher_task_code {
    BATCHER_TASK_BLOCK, /* drop what `participant` sends and close its connection, for `cause` */
    BATCHER_TASK_FINAL, /* `proposal` is final, and so are those that it builds on. Where WRITE comes next, hold
                         * it until that is done: it has the finalization */
    BATCHER_TASK_CAST, /* cast `vote`, of an earlier life, again */
    BATCHER_TASK_SEND_VOTE, /* send `vote` to all others */
    BATCHER_TASK_SEND_CERTIFICATE, /* send that of `kind` and the round of `proposal` to all others */
    BATCHER_TASK_ENTER, /* enter the view of `proposal` with its leader, and start its timer */
    BATCHER_TASK_VERIFY, /* have all verified that `batcher_validator_lend` hands out */
    BATCHER_TASK_SIGN, /* sign `kind` and `proposal`, and cast the vote */
    BATCHER_TASK_PROPOSE, /* make the payload of `proposal`, and judge it to be valid */
    BATCHER_TASK_JUDGE, /* judge whether `proposal` is valid */
    BATCHER_TASK_FORWARD /* send the payload notarized in the round of `proposal` to whom its certificate lacks */
};

/* What is to be done to a file. */
enum batcher_change_code {
    BATCHER_CHANGE_FRAME, /* write the frame at this byte */
    BATCHER_CHANGE_BYTE, /* write one byte there */
    BATCHER_CHANGE_LENGTH /* cut the file to so many bytes */
};

/* A proposal. Of a nullify and a nullification its epoch and view alone count. */
struct batcher_proposal {
    uint64_t epoch;
    uint64_t view;
    uint64_t parent;
    uint8_t payload[32];
};

/* An attestation: a signature of a signer on what it signs. It is the first `length` of the bytes, and
 * what comes after them doesn't count. Signatures with the same bytes are equal. */
struct batcher_attestation {
    uint32_t signer;
    uint8_t length;
    uint8_t bytes[BATCHER_SIGNATURE_BYTES];
};

struct batcher_vote {
    struct batcher_proposal proposal;
    struct batcher_attestation attestation;
    uint8_t kind;
};

/* The answer to a vote. */
struct batcher_admission {
    struct batcher_vote first; /* the votes of the report; of a new one the first alone */
    struct batcher_vote second;
    uint8_t report;
    uint8_t block;
    bool added; /* the first of its kind and signer */
    bool retained; /* of a round's own vote, whether votes of its kind are kept in full; else false */
};

/* What a construction comes to. Of one that wants verdicts: what the attestations are to attest, how many
 * there are, and how many others are known to attest. Of one that was made: the batch, and of a
 * certificate what it is of and of how many attestations it is made. */
struct batcher_step {
    struct batcher_proposal proposal;
    uint64_t processed; /* how many votes were looked at */
    uint64_t listed;
    uint64_t verified;
    uint64_t invalid; /* how many signers of votes that don't attest there are */
    uint8_t kind;
    bool certified;
    bool fallback; /* the pending votes had to be verified one by one */
};

/* What is to be done. Members that its task doesn't name stay as they were. */
struct batcher_task {
    struct batcher_vote vote;
    struct batcher_proposal proposal;
    uint32_t participant;
    uint8_t task;
    uint8_t kind;
    uint8_t cause;
};

/* How far a kind of a view is from its certificate. Once that is there, no vote of it waits. */
struct batcher_counts {
    uint64_t pending; /* votes that wait and weren't verified */
    uint64_t verified; /* votes that wait and attest */
    bool certified;
};

/* How far a view is, and so why it hangs. */
struct batcher_progress {
    struct batcher_counts notarizes;
    struct batcher_counts nullifies;
    struct batcher_counts finalizes;
    uint32_t leader; /* who leads it, where it has a leader */
    bool has_leader;
    bool has_proposal; /* whether a proposal is selected */
};

/* One thing to do to a file, which is synced before anything else is done. */
struct batcher_change {
    uint64_t at;
    uint8_t change;
    uint8_t byte;
    bool in_other; /* it is of the file that isn't in use */
};

/* What a round is made of. */
struct batcher_round_options {
    uint64_t epoch;
    uint64_t view;
    uint32_t participants; /* whose keys are 0, 1, .. in this order */
    uint8_t keys[32]; /* distinguishes the list of their keys from other lists, as its hash does */
    uint8_t mode;
    bool batchable; /* it waits for a quorum before it wants verdicts */
};

/* The most participants of a validator, and the most views ahead of which it takes something in: a faulty participant
 * can have it keep something of each. */
#define BATCHER_MOST_PARTICIPANTS 65535
#define BATCHER_MOST_AHEAD 1024

/* What a validator is made of. MALFORMED: there are too many participants or views ahead, or `participant` is none
 * of them. */
struct batcher_validator_options {
    uint64_t epoch;
    uint64_t ahead; /* how many views beyond the current one are of its window, BATCHER_MOST_AHEAD at most */
    uint32_t participants; /* BATCHER_MOST_PARTICIPANTS at most */
    uint32_t participant; /* which of them it is */
    uint8_t keys[32];
    bool track_historical_votes; /* votes are kept in full to their round's end */
    bool begins; /* its participant never signed anything in the epoch, and its disk has no bytes */
};

/* Does nothing. Its name has the version of this header, so a library of another one doesn't link. */
void batcher_abi_9(void);
__attribute__((used)) static void (*const batcher_abi)(void) = batcher_abi_9;

/* The library takes its memory by these three, which a program defines: c/heap.c does, over malloc. A block
 * is aligned by 16, and `at` is never null, also where the request is refused. */
struct rattle_block {
    bool ok; /* false: memory is refused */
    void *at;
};

struct rattle_block rattle_alloc(size_t size, size_t align);
struct rattle_block rattle_realloc(void *at, size_t kept, size_t size, size_t align);
void rattle_dealloc(void *at);

/* What a code says, as text for people. */
static inline const char *batcher_code_text(uint8_t code) {
    switch (code) {
    case BATCHER_DONE: return "done";
    case BATCHER_NONE: return "the handle is empty";
    case BATCHER_MALFORMED: return "malformed";
    case BATCHER_ELSEWHERE: return "of another round, or outside of the window";
    case BATCHER_OUT_OF_MEMORY: return "out of memory";
    case BATCHER_LEADER_CHANGED: return "another leader was named before";
    case BATCHER_NOT_VERIFIED: return "the own vote, or one of the disk, doesn't attest";
    case BATCHER_DUPLICATE_NOTARIZE: return "a notarize of its signer is kept";
    case BATCHER_DUPLICATE_FINALIZE: return "a finalize of its signer is kept";
    case BATCHER_CONFLICTING: return "an earlier vote of its kind and signer was for another proposal";
    case BATCHER_NULLIFY_AFTER_FINALIZE: return "its signer has finalized before";
    case BATCHER_FINALIZE_AFTER_NULLIFY: return "its signer has nullified before";
    case BATCHER_IDLE: return "nothing is to be done, or there is none";
    case BATCHER_VERIFY: return "verdicts are wanted";
    case BATCHER_STALE: return "something else is asked about";
    case BATCHER_DROPPED: return "its peer is blocked";
    case BATCHER_UNKNOWN: return "its peer or its leader takes no part";
    case BATCHER_PASSED: return "the view is before the finalized one";
    case BATCHER_KNOWN: return "one of its kind was there";
    case BATCHER_FORGED: return "the certificate doesn't certify what it names";
    case BATCHER_SHORT: return "a list or a room is too short";
    case BATCHER_WRITE: return "bytes are to be written first";
    case BATCHER_FULL: return "the journal has no room left";
    case BATCHER_CLOSED: return "the journal is closed";
    case BATCHER_NOT_OWN: return "another participant signed it";
    case BATCHER_SIGNED: return "its subject was signed before";
    case BATCHER_REFUSED: return "a rule of voting refuses it";
    case BATCHER_NOT_BEGUN: return "there are no bytes to start by";
    case BATCHER_BEGUN: return "there are bytes, so nothing begins";
    case BATCHER_OTHER_VERSION: return "the bytes are of another version";
    case BATCHER_OTHER_OWNER: return "the bytes are somebody else's";
    case BATCHER_DAMAGED: return "the bytes are damaged";
    case BATCHER_UNFINISHED: return "other changes are to be done first";
    case BATCHER_NOT_WRITTEN: return "something isn't written yet";
    case BATCHER_NOT_GIVEN: return "no write is under way by this number";
    default: return "no code of this version";
    }
}

/* Where it is DONE, the handle's earlier round is freed. */
uint8_t batcher_round_new(struct batcher_round *round, const struct batcher_round_options *options);

/* Frees the round, if there is one. */
void batcher_round_free(struct batcher_round *round);

/* A vote of the peer whose key is the sender; of another number, of one that takes no part. */
uint8_t batcher_round_add_network(struct batcher_round *round, uint64_t sender,
                                  const struct batcher_vote *vote, struct batcher_admission *out);

/* A vote of the node's own, and whether it attests. It is to be sent only where it is DONE and `added`. */
uint8_t batcher_round_accept_vote(struct batcher_round *round, const struct batcher_vote *vote,
                                  bool attests, struct batcher_admission *out);

/* A certificate that the caller has verified, as bytes. It says of a notarization whether another proposal
 * is selected than before. */
uint8_t batcher_round_record_certificate(struct batcher_round *round, uint8_t kind,
                                         const struct batcher_proposal *proposal, const uint8_t *bytes,
                                         size_t bytes_length, bool *selected_anew);

/* Whether each attestation of a list attests what the construction is about: of those that
 * `batcher_round_try_construct` listed, from the first on. They may come late, and in parts. STALE: the
 * list isn't that any more, as where another kind is next. */
uint8_t batcher_round_record_verdicts(struct batcher_round *round, uint8_t kind,
                                      const struct batcher_proposal *proposal,
                                      const struct batcher_attestation *list, size_t list_length,
                                      const bool *verdicts, size_t verdicts_length);

/* The index isn't looked at, and can't be changed. */
uint8_t batcher_round_set_leader(struct batcher_round *round, uint32_t leader);

/* IDLE: there is none yet. */
uint8_t batcher_round_leader(const struct batcher_round *round, uint32_t *out);

/* The selected proposal. IDLE: there is none yet. */
uint8_t batcher_round_proposal(const struct batcher_round *round, struct batcher_proposal *out);

/* The selected proposal, to hand on once. IDLE: there is none, or not for this participant. */
uint8_t batcher_round_try_forward_proposal(struct batcher_round *round, uint32_t me,
                                           struct batcher_proposal *out);

uint8_t batcher_round_has_certificate(const struct batcher_round *round, uint8_t kind, bool *out);

/* Whether a nullify of the signer is kept in full. */
uint8_t batcher_round_has_nullify(const struct batcher_round *round, uint32_t signer, bool *out);

/* Whether the participant isn't known to have the proposal's contents. Of votes that aren't kept in full one
 * for the selected proposal counts for whichever is asked about. */
uint8_t batcher_round_is_missing_voter(const struct batcher_round *round,
                                       const struct batcher_proposal *proposal,
                                       uint32_t participant, bool *out);

/* Those that aren't known to have it. What doesn't fit into the list is left out, but counted. One of as many
 * places as there are participants holds all. */
uint8_t batcher_round_missing_voters(const struct batcher_round *round,
                                     const struct batcher_proposal *proposal, uint32_t *list,
                                     size_t list_length, uint64_t *count);

/* The next construction. VERIFY: verdicts are wanted on the attestations of the list, and nothing has
 * changed; `known` has those that are known to attest. A verdict is kept while its attestation waits, and
 * isn't wanted again. DONE: the list has the attestations of the certificate, if one was made: those of a
 * quorum of different participants, which attest each or passed as a whole. Make it after all that was
 * taken in, until it is IDLE. SHORT: `list` or `signers` has fewer places than there are participants, so
 * something might not fit, and nothing has changed. What doesn't fit into `known` is left out, but counted. */
uint8_t batcher_round_try_construct(struct batcher_round *round, struct batcher_step *out,
                                    struct batcher_attestation *known, size_t known_length,
                                    struct batcher_attestation *list, size_t list_length,
                                    uint32_t *signers, size_t signers_length);

/* The next construction, of attestations that pass as a whole, as of a scheme that aggregates: those that
 * are known to attest, and then all that wait. STALE: the list isn't that, or no quorum. */
uint8_t batcher_round_construct_together(struct batcher_round *round, uint8_t kind,
                                         const struct batcher_proposal *proposal,
                                         const struct batcher_attestation *list, size_t list_length,
                                         struct batcher_step *out);

/* The votes that the disk of a validator shows: its own, and those that its certificates list. Verify each before
 * `batcher_validator_start`: they are sent again. `count` has how many they are. SHORT: the list is too short for so
 * many, and stays as it was. NOT_VERIFIED: a certificate there lists no quorum. Else the code is that of
 * `batcher_validator_start`. */
uint8_t batcher_validator_disk(const struct batcher_validator_options *options, const uint8_t *namespace_bytes,
                               size_t namespace_bytes_length, const uint8_t *disk, size_t disk_length,
                               struct batcher_vote *list, size_t list_length, uint64_t *count);

/* A validator: it takes in what comes, votes by the rules, and says what is to be done next. `poll` after
 * each call, until it is IDLE. Its disk has the bytes `disk`; where it `begins`, none. The namespace keeps
 * its votes apart from those of other uses of the keys. There is a verdict on each vote that its disk shows.
 * NOT_VERIFIED: one has none, or doesn't attest. Where it is DONE, the handle's earlier one is freed. */
uint8_t batcher_validator_start(struct batcher_validator *validator, const struct batcher_validator_options *options,
                                const uint8_t *namespace_bytes, size_t namespace_bytes_length, const uint8_t *disk,
                                size_t disk_length, const bool *verdicts, size_t verdicts_length);

/* Frees the validator, if there is one. */
void batcher_validator_free(struct batcher_validator *validator);

/* What is to be done next. DONE: the task, once. WRITE: nothing is, until `batcher_validator_give` has given what is
 * to be written. IDLE: nothing is, until something comes, or a write is done: while one is under way, what is
 * sent, signed or final waits. FULL and CLOSED: start it again, by what is on the disk. */
uint8_t batcher_validator_poll(struct batcher_validator *validator, struct batcher_task *out);

/* What is to be written to the disk, so that a crash leaves all of it or none: in the place of all that is
 * there where it `replaces`, and else behind it. It is given once, and under way from then on by this number, of
 * your own: give no two writes of a program the same, so that what one of an earlier start is confirmed by isn't
 * taken for another's. SHORT: the room is too short for so many, and nothing is under way. IDLE: nothing is to be
 * written, or a write is under way. */
uint8_t batcher_validator_give(struct batcher_validator *validator, uint64_t number, uint8_t *room, size_t room_length,
                               uint64_t *count, bool *replaces);

/* The write of this number is done, and lasts: what was given then, and nothing that came since. Where it
 * failed, start the validator again by the disk. NOT_GIVEN: none is under way by this number. */
uint8_t batcher_validator_wrote(struct batcher_validator *validator, uint64_t number);

/* A vote of the peer whose key is the number, who is authenticated. */
uint8_t batcher_validator_vote(struct batcher_validator *validator, uint64_t peer, const struct batcher_vote *vote,
                               struct batcher_admission *out);

/* A certificate of a peer, as bytes, and whether each of the attestations that they list attests what it names.
 * It certifies where all do. Bytes that list none, as `batcher_validator_listed` says, take no verdicts. By one from
 * beyond the window a validator that fell behind goes on, since it is learned. FORGED: its peer is given to be blocked
 * next. MALFORMED also where there isn't one verdict on each. */
uint8_t batcher_validator_certificate(struct batcher_validator *validator, uint64_t peer, uint8_t kind,
                                      const struct batcher_proposal *proposal, const uint8_t *bytes,
                                      size_t bytes_length, const bool *verdicts, size_t verdicts_length);

/* What the bytes of a certificate list. VERIFY: the attestations of a quorum of different participants, on which
 * verdicts are wanted, and how many they are. FORGED: it is no such list, so nothing is to be verified. SHORT: the
 * list has fewer places than there are participants. */
uint8_t batcher_validator_listed(const struct batcher_validator *validator, const uint8_t *bytes, size_t bytes_length,
                                 struct batcher_attestation *list, size_t list_length, uint64_t *count);

/* Whether a certificate of this kind, and of the round of the proposal, is looked at that this peer sends: ask
 * before it is verified. KNOWN, ELSEWHERE, DROPPED and UNKNOWN say why it isn't. */
uint8_t batcher_validator_wants(const struct batcher_validator *validator, uint64_t peer, uint8_t kind,
                                const struct batcher_proposal *proposal);

/* Hands out attestations that are to be verified, each once while what waits only grows at its end.
 * VERIFY: the list has them. `kind` and
 * `proposal` of `out` say what they are to attest, and `listed` how many they are; `stamp` names
 * them. Call again until it answers something else: there may be more, since other kinds of the
 * view, and later views, are handed out early. DONE: verdicts on all that the next construction
 * looks at were there, and it is made: poll. IDLE: nothing is left to hand out now. Where no kind is
 * ready, its view rests. SHORT: the list has fewer places than there are participants. Only with
 * VERIFY `out`, `stamp` and the list change. While verdicts on a part of what waits for a subject
 * are awaited, no more of it is handed out. */
uint8_t batcher_validator_lend(struct batcher_validator *validator, struct batcher_step *out, uint64_t *stamp,
                               struct batcher_attestation *list, size_t list_length);

/* Verdicts on what was handed out by a stamp, of a kind of a view: one on each, in its order. They
 * may come late, and what was handed out first may be answered last. DONE: they are taken in, and a
 * construction is made by them. IDLE: they are taken in, and nothing is made by them yet. STALE:
 * nothing is awaited by this stamp there, or there isn't one verdict on each. Nothing changes then.
 * OUT_OF_MEMORY: they are taken in, and the construction isn't made: make the same call again. The
 * stamp is good for that until something else of the kind and view is handed out. */
uint8_t batcher_validator_conclude(struct batcher_validator *validator, uint64_t view, uint8_t kind, uint64_t stamp,
                                   const bool *verdicts, size_t verdicts_length);

/* The bytes to sign for a subject in a namespace, and to verify a signature on it: no other subject has the same
 * ones, and none in another namespace. SHORT: the room is too short for so many. */
uint8_t batcher_message(const uint8_t *namespace_bytes, size_t namespace_bytes_length, uint8_t kind,
                        const struct batcher_proposal *proposal, uint8_t *room, size_t room_length, uint64_t *count);

/* The same in the namespace of the validator. */
uint8_t batcher_validator_message(const struct batcher_validator *validator, uint8_t kind,
                                  const struct batcher_proposal *proposal, uint8_t *room, size_t room_length,
                                  uint64_t *count);

/* A vote of its own, and whether it attests: what was to be signed, or to be cast again. Verify it: all would
 * block a validator that sends one which doesn't. It is sent only where a task says so. NOT_VERIFIED: nothing is
 * written, and it is to be signed again once a time is over; meanwhile another may be. */
uint8_t batcher_validator_cast(struct batcher_validator *validator, const struct batcher_vote *vote, bool attests);

/* The leader can't be changed. UNKNOWN: it takes no part, and nothing changes. Where it is another participant, and is
 * blocked or absent, the view is given up, as by `batcher_validator_expire`, and nothing is sent again. It is absent
 * where no vote and no certificate of the window came of it since twice as many views were entered as there are
 * participants. What was handed out to be verified of views in which nothing is due is dropped:
 * verdicts on it are STALE then. */
uint8_t batcher_validator_enter(struct batcher_validator *validator, uint64_t view, uint32_t leader);

/* Whether a proposal is valid. One of its own is. Of one that isn't, the view is given up. */
uint8_t batcher_validator_judge(struct batcher_validator *validator, const struct batcher_proposal *proposal,
                                bool valid);

/* The time of the view is over, for the first time or again: it is given up, unless its proposal is
 * notarized. What isn't signed by then is to be signed again, and a part of what was sent is sent again: own votes
 * of the current view, the finalization of the final view, the certificates of the two newest views, and in turn
 * those of four others. How far the view is says why it takes so long. */
uint8_t batcher_validator_expire(struct batcher_validator *validator, uint64_t view, struct batcher_progress *out);

/* How far a view is, and so why it hangs. */
uint8_t batcher_validator_progress(const struct batcher_validator *validator, uint64_t view,
                                   struct batcher_progress *out);

/* Which view it is in, and the highest that is final. Each is 0 where there is none yet. */
uint8_t batcher_validator_views(const struct batcher_validator *validator, uint64_t *current, uint64_t *last);

/* Whether what this peer sends is looked at: ask before its certificate is verified. DROPPED: it isn't. */
uint8_t batcher_validator_hears(const struct batcher_validator *validator, uint64_t peer);

/* The whole proposal of the certificate of this kind and of its round. IDLE: none is kept. */
uint8_t batcher_validator_certified(const struct batcher_validator *validator, uint8_t kind,
                                    struct batcher_proposal *proposal);

/* The certificate of this kind and of the round of the proposal: its bytes, and the whole proposal. One that
 * it made is its list of attestations. SHORT: the room is too short for so many bytes. IDLE: none is kept.
 * NOT_WRITTEN: it may have an own vote that the disk lacks. */
uint8_t batcher_validator_kept(const struct batcher_validator *validator, uint8_t kind,
                               struct batcher_proposal *proposal, uint8_t *room, size_t room_length,
                               uint64_t *count);

/* Who isn't known to have the payload of the proposal that is notarized in the round of this one: neither a vote
 * that came shows it, nor the notarization. The list has as many as it has places, and `count` says how many they
 * are. IDLE: nothing is notarized there, or nothing but that is known of its view, as after a start: then who isn't in
 * the notarization may lack it. */
uint8_t batcher_validator_lacking(const struct batcher_validator *validator, const struct batcher_proposal *proposal,
                                  uint32_t *list, size_t list_length, uint64_t *count);

/* What is in two files that take turns, so that a crash at any moment leaves all that was written, or that and
 * what was being written. Nothing here reads or writes a file: each of the first four calls says what is to be done,
 * and `batcher_files_carried_out` that it is. Where a disk fails to do it, free this, and open the files again.
 * `turned`: the second is the one in use. NOT_BEGUN: both are empty, so create. */
uint8_t batcher_files_open(struct batcher_files *files, const uint8_t *first, size_t first_length,
                           const uint8_t *second, size_t second_length, bool *turned);

/* The first is the one in use. BEGUN: they aren't empty. */
uint8_t batcher_files_create(struct batcher_files *files, const uint8_t *first, size_t first_length,
                             const uint8_t *second, size_t second_length, const uint8_t *bytes,
                             size_t bytes_length);

/* Frees what is known of the files. */
void batcher_files_free(struct batcher_files *files);

uint8_t batcher_files_append(struct batcher_files *files, const uint8_t *bytes, size_t bytes_length);

/* Once it is carried out, the other file is the one in use. */
uint8_t batcher_files_replace(struct batcher_files *files, const uint8_t *bytes, size_t bytes_length);

/* The change of this number, from 0 on. IDLE: there are no more. */
uint8_t batcher_files_change(const struct batcher_files *files, uint64_t number, struct batcher_change *out);

/* All changes are done, each before the next one was begun, and last. */
uint8_t batcher_files_carried_out(struct batcher_files *files);

/* The frame that the changes write. SHORT: the room is too short for so many bytes. */
uint8_t batcher_files_frame(const struct batcher_files *files, uint8_t *room, size_t room_length,
                            uint64_t *count);

/* What was written to the files, in all. SHORT: the room is too short for so many bytes. */
uint8_t batcher_files_bytes(const struct batcher_files *files, uint8_t *room, size_t room_length,
                            uint64_t *count);

/* The signer that two votes convict: they are of one of so many participants with these keys, which are 32
 * bytes as those of a round, contradict each other, and both attest, as the caller has verified. IDLE:
 * they convict nobody. It takes no round's word. */
uint8_t batcher_convicted(uint32_t participants, const uint8_t *keys, const struct batcher_vote *first,
                          const struct batcher_vote *second, bool first_attests, bool second_attests,
                          uint32_t *out);

#ifdef __cplusplus
}
#endif

#endif
