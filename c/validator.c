/* One validator with real signatures, by Ed25519 of libsodium, with two files for what it writes, and connected by TCP. It
 * speaks as the validators of rust/validator do, which start it among them, kill it at any moment and start it again.
 * usage: validator run INDEX FOLDER PORT.. */
#define _POSIX_C_SOURCE 200809L
#include "batcher.h"
#include <arpa/inet.h>
#include <errno.h>
#include <fcntl.h>
#include <netinet/tcp.h>
#include <poll.h>
#include <signal.h>
#include <stdarg.h>
#include <stdio.h>
#include <stdlib.h>
#include <string.h>
#include <sys/file.h>
#include <sys/stat.h>
#include <time.h>
#include <unistd.h>

#define MOST 16
#define ROOM (1 << 20)
#define NAMESPACE "batcher validator example"
#define HELLO "batcher validator hello"
#define SHOWN 16384 /* as many votes as its disk shows */
#define MESSAGE 128 /* room for what is signed */
#define SUBJECT 58 /* what it is, its kind, epoch, view, parent and payload */

/* The functions of libsodium that this takes. Its package has the library alone, without a header. */
int sodium_init(void);
int crypto_sign_ed25519_seed_keypair(unsigned char *public, unsigned char *secret, const unsigned char *seed);
int crypto_sign_ed25519_detached(unsigned char *signature, unsigned long long *length, const unsigned char *message,
                                 unsigned long long message_length, const unsigned char *secret);
int crypto_sign_ed25519_verify_detached(const unsigned char *signature, const unsigned char *message,
                                        unsigned long long message_length, const unsigned char *public);
int crypto_hash_sha256(unsigned char *out, const unsigned char *message, unsigned long long message_length);

/* Bytes that come from a peer, or go to it. */
struct way {
    int socket; /* -1: none */
    bool is_ready; /* who it is has been shown */
    uint32_t peer;
    uint8_t nonce[32];
    uint8_t *bytes;
    size_t count;
    uint64_t again; /* when to connect again */
};

static uint32_t me, count;
static uint8_t public[MOST][32], secret[MOST][64];
static uint16_t ports[MOST];
static int listener, record, files[2], in_use;
static struct way from[4 * MOST], to[MOST];
static bool is_blocked[MOST];
static struct batcher_validator validator;
static struct batcher_files disk;
static uint64_t view, last, deadline;
/* What is final, until the next write is done: it has the finalization. */
static struct batcher_proposal held;
static bool is_held;
static uint8_t room[ROOM];

static void stop(const char *what) {
    fprintf(stderr, "validator %u stopped: %s\n", (unsigned)me, what);
    exit(1);
}

static void need(bool holds, const char *what) {
    if (!holds) stop(what);
}

/* An answer that isn't DONE ends the validator, which is started again by its files. */
static void done(uint8_t code) { need(code == BATCHER_DONE, batcher_code_text(code)); }

static uint64_t now(void) {
    struct timespec it;
    clock_gettime(CLOCK_MONOTONIC, &it);
    return (uint64_t)it.tv_sec * 1000 + (uint64_t)it.tv_nsec / 1000000;
}

static void put(uint8_t *bytes, uint64_t number, size_t width) {
    for (size_t i = 0; i < width; i++) bytes[i] = (uint8_t)(number >> 8 * (width - 1 - i));
}

static uint64_t number(const uint8_t *bytes, size_t width) {
    uint64_t found = 0;
    for (size_t i = 0; i < width; i++) found = found << 8 | bytes[i];
    return found;
}

/* A line of the record is written at once, so that none is torn where it is killed. */
static void note(const char *format, ...) {
    char line[256];
    va_list words;
    va_start(words, format);
    int length = vsnprintf(line, sizeof line, format, words);
    va_end(words);
    need(write(record, line, (size_t)length) == length, "the record isn't written");
}

static const char *hex(const uint8_t *payload) {
    static char text[65];
    for (int i = 0; i < 32; i++) snprintf(text + 2 * i, 3, "%02x", payload[i]);
    return text;
}

/* The bytes to sign. */
static size_t message_of(uint8_t *bytes, uint8_t kind, const struct batcher_proposal *proposal) {
    uint64_t length;
    done(batcher_message((const uint8_t *)NAMESPACE, sizeof NAMESPACE - 1, kind, proposal, bytes, MESSAGE, &length));
    return length;
}

static bool attests(uint8_t kind, const struct batcher_proposal *proposal, const struct batcher_attestation *it) {
    uint8_t message[MESSAGE];
    size_t length = message_of(message, kind, proposal);
    return it->signer < count && it->length == 64
        && crypto_sign_ed25519_verify_detached(it->bytes, message, length, public[it->signer]) == 0;
}

/* Whether each attestation attests that the bytes of a certificate list, and how many they are: none where it is
 * no list of a quorum. */
static size_t verdicts_on(bool *verdicts, uint8_t kind, const struct batcher_proposal *proposal, const uint8_t *bytes,
                          size_t length) {
    struct batcher_attestation list[MOST];
    uint64_t listed = 0;
    uint8_t code = batcher_validator_listed(&validator, bytes, length, list, MOST, &listed);
    need(code == BATCHER_VERIFY || code == BATCHER_FORGED, batcher_code_text(code));
    for (uint64_t i = 0; i < listed; i++) verdicts[i] = attests(kind, proposal, &list[i]);
    return listed;
}

/* Does what is to be done to the files, each thing after the one before lasts. */
static void carry_out(void) {
    struct batcher_change change;
    uint64_t length;
    done(batcher_files_frame(&disk, room, ROOM, &length));
    for (uint64_t i = 0; batcher_files_change(&disk, i, &change) == BATCHER_DONE; i++) {
        int file = files[change.in_other ? 1 - in_use : in_use];
        const void *bytes = change.change == BATCHER_CHANGE_FRAME ? room : &change.byte;
        size_t wanted = change.change == BATCHER_CHANGE_FRAME ? length : 1;
        if (change.change == BATCHER_CHANGE_LENGTH)
            need(ftruncate(file, (off_t)change.at) == 0, "a file isn't cut");
        else
            need(pwrite(file, bytes, wanted, (off_t)change.at) == (ssize_t)wanted, "a file isn't written");
        need(fsync(file) == 0, "a file isn't synced");
    }
    done(batcher_files_carried_out(&disk));
}

static size_t read_file(const char *folder, int which, uint8_t *bytes) {
    char path[512];
    snprintf(path, sizeof path, "%s/journal.%d", folder, which);
    files[which] = open(path, O_RDWR | O_CLOEXEC);
    need(files[which] >= 0, "a file isn't there");
    /* The lock of the first is that of both, as the crate has it, until the program ends. */
    need(which == 1 || flock(files[0], LOCK_EX | LOCK_NB) == 0, "its files are in use");
    ssize_t length = pread(files[which], bytes, ROOM, 0);
    need(length >= 0 && length < ROOM && fsync(files[which]) == 0, "a file isn't read");
    return (size_t)length;
}

/* Makes the validator. What its disk shows is sent again, so there is a verdict on each vote of it. */
static void start_by(const struct batcher_validator_options *options, const uint8_t *bytes, uint64_t length) {
    static struct batcher_vote votes[SHOWN];
    static bool verdicts[SHOWN];
    uint64_t shown = 0;
    done(batcher_validator_disk(options, (const uint8_t *)NAMESPACE, sizeof NAMESPACE - 1, bytes, length, votes, SHOWN, &shown));
    for (uint64_t i = 0; i < shown; i++)
        verdicts[i] = attests(votes[i].kind, &votes[i].proposal, &votes[i].attestation);
    done(batcher_validator_start(&validator, options, (const uint8_t *)NAMESPACE, sizeof NAMESPACE - 1, bytes, length, verdicts,
                                 shown));
}

/* The validator that goes on by its files. Files that have nothing show that nothing was signed, so it begins. */
static void start(const char *folder) {
    static uint8_t first[ROOM], second[ROOM];
    struct batcher_validator_options options = {.ahead = 16, .participants = count, .participant = me};
    size_t lengths[2];
    uint64_t written = 0;
    bool turned = false;
    lengths[0] = read_file(folder, 0, first);
    lengths[1] = read_file(folder, 1, second);
    uint8_t code = batcher_files_open(&disk, first, lengths[0], second, lengths[1], &turned);
    in_use = turned;
    options.begins = code == BATCHER_NOT_BEGUN;
    if (!options.begins) {
        done(code);
        carry_out();
        done(batcher_files_bytes(&disk, first, ROOM, &written));
    }
    crypto_hash_sha256(options.keys, public[0], 32 * count);
    start_by(&options, first, written);
}

static void write_down(void) {
    static uint8_t bytes[ROOM];
    static uint64_t writes;
    uint64_t length;
    bool replaces;
    writes++;
    done(batcher_validator_give(&validator, writes, bytes, ROOM, &length, &replaces));
    if (disk.at == NULL)
        done(batcher_files_create(&disk, room, 0, room, 0, bytes, length));
    else
        done(replaces ? batcher_files_replace(&disk, bytes, length) : batcher_files_append(&disk, bytes, length));
    carry_out();
    if (replaces) in_use = 1 - in_use;
    done(batcher_validator_wrote(&validator, writes));
}

static void hang_up(struct way *it) {
    if (it->socket >= 0) close(it->socket);
    it->socket = -1;
    it->count = 0;
    it->is_ready = false;
    it->again = now() + 20;
}

/* What can't be sent now waits, unless that is too much. */
static void send_all(uint8_t what, uint8_t kind, const struct batcher_proposal *proposal, const uint8_t *content,
                     size_t length) {
    for (uint32_t peer = 0; peer < count; peer++) {
        struct way *it = &to[peer];
        if (peer == me || it->count + 4 + SUBJECT + length > ROOM) continue;
        uint8_t *at = it->bytes + it->count;
        put(at, SUBJECT + length, 4);
        at[4] = what;
        at[5] = kind;
        put(at + 6, proposal->epoch, 8);
        put(at + 14, proposal->view, 8);
        put(at + 22, proposal->parent, 8);
        memcpy(at + 30, proposal->payload, 32);
        memcpy(at + 62, content, length);
        it->count += 4 + SUBJECT + length;
    }
}

/* That doubles with each view beyond the usual three that isn't final, up to four seconds. */
static void wait_for_view(void) {
    uint64_t behind = view > last + 3 ? view - last - 3 : 0;
    deadline = now() + ((uint64_t)250 << (behind < 4 ? behind : 4));
}

static void cast(const struct batcher_task *task) {
    struct batcher_vote vote = task->vote;
    if (task->task == BATCHER_TASK_SIGN) {
        uint8_t message[MESSAGE];
        size_t length = message_of(message, task->kind, &task->proposal);
        memset(&vote, 0, sizeof vote);
        vote.kind = task->kind;
        vote.proposal = task->proposal;
        vote.attestation.signer = me;
        vote.attestation.length = 64;
        crypto_sign_ed25519_detached(vote.attestation.bytes, NULL, message, length, secret[me]);
    }
    uint8_t code = batcher_validator_cast(&validator, &vote, attests(vote.kind, &vote.proposal, &vote.attestation));
    need(code == BATCHER_DONE || code == BATCHER_KNOWN || code == BATCHER_REFUSED || code == BATCHER_ELSEWHERE,
         batcher_code_text(code));
}

static void verify(void) {
    struct batcher_attestation list[MOST];
    struct batcher_step step;
    uint64_t stamp;
    bool verdicts[MOST];
    uint8_t code;
    while ((code = batcher_validator_lend(&validator, &step, &stamp, list, MOST)) == BATCHER_VERIFY) {
        for (uint64_t i = 0; i < step.listed; i++) verdicts[i] = attests(step.kind, &step.proposal, &list[i]);
        code = batcher_validator_conclude(&validator, step.proposal.view, step.kind, stamp, verdicts, step.listed);
        need(code == BATCHER_DONE || code == BATCHER_IDLE, batcher_code_text(code));
    }
    need(code == BATCHER_DONE || code == BATCHER_IDLE, batcher_code_text(code));
}

static void say_final(void) {
    if (!is_held) return;
    is_held = false;
    last = held.view;
    note("final %llu %llu %s\n", (unsigned long long)last, (unsigned long long)held.parent, hex(held.payload));
}

static void perform(struct batcher_task *task) {
    static const char *const kinds[] = {"notarization", "nullification", "finalization"};
    struct batcher_proposal *proposal = &task->proposal;
    uint8_t numbers[16];
    uint64_t length;
    switch (task->task) {
    case BATCHER_TASK_BLOCK:
        note("blocks %u for %u\n", (unsigned)task->participant, (unsigned)task->cause);
        is_blocked[task->participant] = true;
        break;
    case BATCHER_TASK_FINAL:
        held = *proposal;
        is_held = true;
        break;
    case BATCHER_TASK_SEND_VOTE:
        note("sends %s %llu %s\n", kinds[task->vote.kind], (unsigned long long)task->vote.proposal.view,
             task->vote.kind == BATCHER_NULLIFICATION ? "" : hex(task->vote.proposal.payload));
        send_all(0, task->vote.kind, &task->vote.proposal, task->vote.attestation.bytes, 64);
        break;
    case BATCHER_TASK_SEND_CERTIFICATE:
        done(batcher_validator_kept(&validator, task->kind, proposal, room, ROOM, &length));
        send_all(1, task->kind, proposal, room, length);
        break;
    case BATCHER_TASK_ENTER:
        view = proposal->view;
        wait_for_view();
        done(batcher_validator_enter(&validator, view, (uint32_t)(view % count)));
        break;
    case BATCHER_TASK_VERIFY: verify(); break;
    case BATCHER_TASK_CAST:
    case BATCHER_TASK_SIGN: cast(task); break;
    case BATCHER_TASK_PROPOSE:
        put(numbers, proposal->view, 8);
        put(numbers + 8, proposal->parent, 8);
        crypto_hash_sha256(proposal->payload, numbers, sizeof numbers);
        done(batcher_validator_judge(&validator, proposal, true));
        break;
    /* There is nothing in a payload here. */
    case BATCHER_TASK_JUDGE: done(batcher_validator_judge(&validator, proposal, true)); break;
    case BATCHER_TASK_FORWARD: break;
    default: stop("a task isn't known");
    }
}

/* Does all that is to be done. */
static void go_on(void) {
    struct batcher_task task;
    memset(&task, 0, sizeof task);
    for (;;) {
        uint8_t code = batcher_validator_poll(&validator, &task);
        if (code == BATCHER_WRITE) write_down();
        /* Where nothing was to be written, it was there. */
        say_final();
        if (code == BATCHER_IDLE) return;
        if (code == BATCHER_WRITE) continue;
        done(code);
        perform(&task);
    }
}

static void hear(uint32_t peer, const uint8_t *bytes, size_t length) {
    struct batcher_admission admission;
    struct batcher_vote vote;
    if (length < SUBJECT) return;
    memset(&vote, 0, sizeof vote);
    vote.kind = bytes[1];
    vote.proposal.epoch = number(bytes + 2, 8);
    vote.proposal.view = number(bytes + 10, 8);
    vote.proposal.parent = number(bytes + 18, 8);
    memcpy(vote.proposal.payload, bytes + 26, 32);
    bytes += SUBJECT;
    length -= SUBJECT;
    if (bytes[-SUBJECT] == 0 && length == 64) {
        vote.attestation.signer = peer;
        vote.attestation.length = 64;
        memcpy(vote.attestation.bytes, bytes, 64);
        batcher_validator_vote(&validator, peer, &vote, &admission);
    } else if (bytes[-SUBJECT] == 1 && batcher_validator_wants(&validator, peer, vote.kind, &vote.proposal) == BATCHER_DONE) {
        bool verdicts[MOST];
        size_t given = verdicts_on(verdicts, vote.kind, &vote.proposal, bytes, length);
        batcher_validator_certificate(&validator, peer, vote.kind, &vote.proposal, bytes, length, verdicts, given);
    }
}

/* What who connects signs: a number that is used once, who it is and whom it connects to. */
static void hello(uint8_t *bytes, const uint8_t *nonce, uint32_t one, uint32_t other) {
    memcpy(bytes, HELLO, sizeof HELLO - 1);
    memcpy(bytes + sizeof HELLO - 1, nonce, 32);
    put(bytes + sizeof HELLO + 31, one, 4);
    put(bytes + sizeof HELLO + 35, other, 4);
}

#define HELLO_LENGTH (sizeof HELLO + 39)

static void welcome(void) {
    int socket = accept(listener, NULL, NULL);
    if (socket < 0) return;
    fcntl(socket, F_SETFL, O_NONBLOCK);
    for (size_t i = 0; i < sizeof from / sizeof *from; i++) {
        struct way *it = &from[i];
        if (it->socket >= 0) continue;
        int random = open("/dev/urandom", O_RDONLY);
        bool fine = random >= 0 && read(random, it->nonce, 32) == 32 && write(socket, it->nonce, 32) == 32;
        if (random >= 0) close(random);
        it->socket = socket;
        it->count = 0;
        it->is_ready = false;
        if (!fine) hang_up(it);
        return;
    }
    close(socket);
}

/* What came from a peer: who it is first, and then messages. */
static void take_in(struct way *it) {
    uint8_t bytes[HELLO_LENGTH];
    ssize_t got = recv(it->socket, it->bytes + it->count, ROOM - it->count, 0);
    if (got < 0 && (errno == EAGAIN || errno == EINTR)) return;
    if (got <= 0) {
        hang_up(it);
        return;
    }
    it->count += (size_t)got;
    size_t used = 0;
    if (!it->is_ready && it->count >= 68) {
        it->peer = (uint32_t)number(it->bytes, 4);
        hello(bytes, it->nonce, it->peer, me);
        if (it->peer >= count
            || crypto_sign_ed25519_verify_detached(it->bytes + 4, bytes, sizeof bytes, public[it->peer]) != 0) {
            hang_up(it);
            return;
        }
        it->is_ready = true;
        used = 68;
    }
    while (it->is_ready && it->count - used >= 4) {
        uint64_t length = number(it->bytes + used, 4);
        if (length + 4 > ROOM || is_blocked[it->peer]) {
            hang_up(it);
            return;
        }
        if (it->count - used - 4 < length) break;
        hear(it->peer, it->bytes + used + 4, length);
        go_on();
        used += 4 + length;
    }
    memmove(it->bytes, it->bytes + used, it->count - used);
    it->count -= used;
}

static void connect_to(uint32_t peer) {
    struct sockaddr_in address = {.sin_family = AF_INET, .sin_port = htons(ports[peer])};
    struct way *it = &to[peer];
    int yes = 1;
    address.sin_addr.s_addr = htonl(INADDR_LOOPBACK);
    it->again = now() + 20;
    it->socket = socket(AF_INET, SOCK_STREAM, 0);
    /* On this machine that doesn't wait. */
    if (it->socket < 0 || connect(it->socket, (struct sockaddr *)&address, sizeof address) != 0) {
        size_t waiting = it->count;
        hang_up(it);
        it->count = waiting;
        return;
    }
    setsockopt(it->socket, IPPROTO_TCP, TCP_NODELAY, &yes, sizeof yes);
    fcntl(it->socket, F_SETFL, O_NONBLOCK);
}

/* Shows a peer who connects to it, once its number has come. It sends nothing else. */
static void introduce(struct way *it, uint32_t peer) {
    uint8_t bytes[HELLO_LENGTH], answer[68], nonce[32];
    ssize_t got = recv(it->socket, nonce, sizeof nonce, 0);
    if (got < 0 && (errno == EAGAIN || errno == EINTR)) return;
    if (got != sizeof nonce || it->is_ready) {
        hang_up(it);
        return;
    }
    hello(bytes, nonce, me, peer);
    put(answer, me, 4);
    crypto_sign_ed25519_detached(answer + 4, NULL, bytes, sizeof bytes, secret[me]);
    if (send(it->socket, answer, sizeof answer, MSG_NOSIGNAL) == sizeof answer)
        it->is_ready = true;
    else
        hang_up(it);
}

static void send_on(struct way *it) {
    ssize_t sent = send(it->socket, it->bytes, it->count, MSG_NOSIGNAL);
    if (sent < 0 && (errno == EAGAIN || errno == EINTR)) return;
    if (sent < 0) {
        hang_up(it);
        return;
    }
    memmove(it->bytes, it->bytes + sent, it->count - (size_t)sent);
    it->count -= (size_t)sent;
}

static void run(void) {
    struct pollfd polled[1 + 5 * MOST];
    struct way *ways[1 + 5 * MOST];
    for (;;) {
        nfds_t all = 0;
        uint64_t next = deadline;
        go_on();
        polled[all] = (struct pollfd){.fd = listener, .events = POLLIN};
        ways[all++] = NULL;
        for (uint32_t peer = 0; peer < count; peer++) {
            if (peer == me) continue;
            if (to[peer].socket < 0 && to[peer].again <= now()) connect_to(peer);
            if (to[peer].socket < 0 && to[peer].again < next) next = to[peer].again;
            bool sends = to[peer].is_ready && to[peer].count != 0;
            polled[all] = (struct pollfd){.fd = to[peer].socket, .events = (short)(POLLIN | (sends ? POLLOUT : 0))};
            ways[all++] = &to[peer];
        }
        for (size_t i = 0; i < sizeof from / sizeof *from; i++) {
            polled[all] = (struct pollfd){.fd = from[i].socket, .events = POLLIN};
            ways[all++] = &from[i];
        }
        uint64_t time = now();
        poll(polled, all, next > time ? (int)(next - time) : 0);
        if (polled[0].revents != 0) welcome();
        for (nfds_t i = 1; i < all; i++) {
            struct way *it = ways[i];
            bool is_outgoing = it >= to && it < to + MOST;
            if ((polled[i].revents & (POLLIN | POLLHUP | POLLERR)) != 0 && it->socket >= 0) {
                if (is_outgoing)
                    introduce(it, (uint32_t)(it - to));
                else
                    take_in(it);
            }
            if ((polled[i].revents & POLLOUT) != 0 && it->socket >= 0 && it->is_ready) send_on(it);
        }
        if (now() >= deadline) {
            struct batcher_progress progress;
            done(batcher_validator_expire(&validator, view, &progress));
            wait_for_view();
        }
    }
}

/* A participant's index is the place of its key. */
static void make_keys(void) {
    for (uint32_t i = 0; i < count; i++) {
        uint8_t seed[32], made[32], its_secret[64];
        memset(seed, (int)i + 1, sizeof seed);
        crypto_sign_ed25519_seed_keypair(made, its_secret, seed);
        uint32_t place = i;
        for (; place > 0 && memcmp(made, public[place - 1], 32) < 0; place--) {
            memcpy(public[place], public[place - 1], 32);
            memcpy(secret[place], secret[place - 1], 64);
        }
        memcpy(public[place], made, 32);
        memcpy(secret[place], its_secret, 64);
    }
}

int main(int words, char **word) {
    struct sockaddr_in address = {.sin_family = AF_INET};
    char path[512];
    int yes = 1;
    if (words < 5 || words > 4 + MOST || strcmp(word[1], "run") != 0) return 2;
    me = (uint32_t)strtoul(word[2], NULL, 10);
    count = (uint32_t)(words - 4);
    if (me >= count) return 2;
    for (uint32_t i = 0; i < count; i++) ports[i] = (uint16_t)strtoul(word[4 + i], NULL, 10);
    need(sodium_init() >= 0, "libsodium doesn't start");
    make_keys();
    snprintf(path, sizeof path, "%s/record", word[3]);
    record = open(path, O_WRONLY | O_APPEND | O_CREAT, 0644);
    need(record >= 0, "there is no record");
    start(word[3]);
    address.sin_addr.s_addr = htonl(INADDR_LOOPBACK);
    address.sin_port = htons(ports[me]);
    listener = socket(AF_INET, SOCK_STREAM, 0);
    setsockopt(listener, SOL_SOCKET, SO_REUSEADDR, &yes, sizeof yes);
    need(bind(listener, (struct sockaddr *)&address, sizeof address) == 0 && listen(listener, 64) == 0,
         "its port is taken");
    for (size_t i = 0; i < sizeof from / sizeof *from; i++) from[i] = (struct way){.socket = -1, .bytes = malloc(ROOM)};
    for (size_t i = 0; i < MOST; i++) to[i] = (struct way){.socket = -1, .bytes = malloc(ROOM)};
    wait_for_view();
    run();
}
