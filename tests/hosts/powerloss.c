/* powerloss DIRECTORY [KILLS [SEED]]: a host that is killed in mid-work goes on from the words of before or after a call.
 *
 * A child makes calls on a member of four, stores it after each call as docs/HOSTS.md, "Stored words", says (a new file, fsync,
 * rename, fsync of the folder), and only then sends: it notes the number of the call. It is killed with SIGKILL after a random
 * time, KILLS times, 200 if not given. After each kill what is stored is loaded and compared with the words of every call that was
 * made up to then: it must be those of the call that was sent last, or of the one after it, and the next child goes on from it. At
 * the end of a run the next run begins, with another number. It exits 1 at the first store that is otherwise. */
#define _DEFAULT_SOURCE
#include <fcntl.h>
#include <signal.h>
#include <stdio.h>
#include <stdlib.h>
#include <string.h>
#include <sys/mman.h>
#include <sys/stat.h>
#include <sys/wait.h>
#include <unistd.h>
#include "forgelilac.h"

enum { CEILING = 16, TABLE = (int)FORGELILAC_TABLE_WORDS(CEILING), BYTES = (int)FORGELILAC_STORED_BYTES(CEILING), MOST = 200 };

struct member {
    uint32_t state[FORGELILAC_STATE_WORDS], table[TABLE];
};
#define ENGINE(m) (m)->state, FORGELILAC_STATE_WORDS, (m)->table, TABLE

struct shared {
    uint64_t run;
    int sent; /* the last call whose signature has left, -1 for none */
};

static void fail(const char *what) {
    perror(what);
    exit(1);
}

/* ---- a run, the same each time: what call k is. */

static void certificate_of(const struct member *m, uint32_t author, uint32_t words[FORGELILAC_CERTIFICATE_WORDS]) {
    uint32_t round = m->state[FORGELILAC_STATE_ROUND];
    words[FORGELILAC_PROPOSAL_AUTHOR] = author;
    words[FORGELILAC_PROPOSAL_ROUND] = round;
    forgelilac_begin_body(words + FORGELILAC_PROPOSAL_BODY, round == 1 ? 0 : 7);
    forgelilac_add_entry(words + FORGELILAC_PROPOSAL_BODY, 100 * round + author);
    words[FORGELILAC_CERTIFICATE_ENDORSERS] = 7 & ~(1u << author);
}

/* Makes call k; 0 where the run is over. */
static int make(struct member *m, int k) {
    uint32_t words[FORGELILAC_CERTIFICATE_WORDS], sheet[FORGELILAC_SHEET_WORDS];
    if (k == 0) {
        forgelilac_blank_sheet(sheet);
        forgelilac_write_setting(sheet, FORGELILAC_CEILING, CEILING);
        return forgelilac_open(ENGINE(m), 0, sheet, FORGELILAC_SHEET_WORDS, FORGELILAC_NO_RIGHTS) == 0;
    }
    switch ((k - 1) % 6) {
    case 0:
        certificate_of(m, 0, words);
        return forgelilac_propose(ENGINE(m), words + FORGELILAC_PROPOSAL_BODY, FORGELILAC_BODY_WORDS) == 0;
    case 1: return forgelilac_certify(ENGINE(m), 6) == 0;
    case 2:
        certificate_of(m, 1, words);
        return forgelilac_accept(ENGINE(m), words, FORGELILAC_CERTIFICATE_WORDS) == 0;
    case 3:
        certificate_of(m, 2, words);
        return forgelilac_accept(ENGINE(m), words, FORGELILAC_CERTIFICATE_WORDS) == 0;
    case 4: return forgelilac_commit(ENGINE(m)) != UINT64_MAX; /* refused in some rounds: no word changes */
    default: return forgelilac_advance(ENGINE(m)) == 0;
    }
}

/* ---- storing, as docs/HOSTS.md says */

static void store(int folder, const struct member *m, uint64_t run) {
    static uint8_t bytes[BYTES];
    if (forgelilac_store(ENGINE(m), run, bytes, BYTES) != 0) exit(3);
    int file = openat(folder, "member.new", O_WRONLY | O_CREAT | O_TRUNC, 0600);
    if (file < 0) fail("member.new");
    for (size_t done = 0; done < BYTES;) {
        ssize_t wrote = write(file, bytes + done, BYTES - done);
        if (wrote < 0) fail("write");
        done += (size_t)wrote;
    }
    if (fsync(file) != 0 || close(file) != 0) fail("fsync");
    if (renameat(folder, "member.new", folder, "member") != 0) fail("rename");
    if (fsync(folder) != 0) fail("fsync of the folder");
}

/* The number that refuses; -1 where nothing is stored. */
static int load(int folder, struct member *m, uint64_t run) {
    static uint8_t bytes[BYTES + 1];
    int file = openat(folder, "member", O_RDONLY);
    if (file < 0) return -1;
    ssize_t count = read(file, bytes, sizeof bytes);
    close(file);
    return (int)forgelilac_load(bytes, (size_t)count, 0, run, ENGINE(m));
}

static void work(int folder, struct shared *shared, struct member *m, int k) {
    for (; make(m, k); k++) {
        store(folder, m, shared->run);
        shared->sent = k; /* the signature leaves */
    }
    exit(0);
}

int main(int count, char **words) {
    if (count < 2) return fprintf(stderr, "powerloss DIRECTORY [KILLS [SEED]]\n"), 2;
    int kills = count > 2 ? atoi(words[2]) : 200, folder = open(words[1], O_RDONLY | O_DIRECTORY), calls = 0, killed = 0, between = 0, runs = 0;
    srandom(count > 3 ? (unsigned)atoi(words[3]) : 1);
    if (folder < 0) fail(words[1]);
    struct shared *shared = mmap(NULL, sizeof *shared, PROT_READ | PROT_WRITE, MAP_SHARED | MAP_ANONYMOUS, -1, 0);
    static struct member made[MOST], now;
    for (memset(&now, 0, sizeof now); calls < MOST && make(&now, calls); calls++) made[calls] = now;
    while (killed < kills) {
        shared->run = (uint64_t)++runs << 32 | 5;
        shared->sent = -1;
        memset(&now, 0, sizeof now);
        for (int k = 0; k < calls && killed < kills; killed++) {
            pid_t child = fork();
            if (child < 0) fail("fork");
            if (child == 0) work(folder, shared, &now, k);
            usleep((useconds_t)(random() % 3000));
            kill(child, SIGKILL);
            int status;
            if (waitpid(child, &status, 0) < 0 || (WIFEXITED(status) && WEXITSTATUS(status) != 0)) fail("child");
            int refused = load(folder, &now, shared->run), sent = shared->sent;
            if ((refused == -1 || refused == FORGELILAC_OTHER_RUN) && sent == -1) continue; /* nothing of this run is stored yet */
            for (k = 0; k < calls && memcmp(&made[k], &now, sizeof now) != 0; k++) {}
            if (refused != 0 || k == calls || k < sent || k > sent + 1) {
                /* A commit that is refused changes no word: then two calls have the same words. */
                if (refused != 0 || k == calls || k + 1 != sent || memcmp(&made[sent], &now, sizeof now) != 0)
                    return printf("powerloss: refused with %d, call %d, sent %d\n", refused, k, sent), 1;
                k = sent;
            }
            between += k > sent;
            shared->sent = k++; /* who goes on sends again what is stored */
        }
    }
    printf("powerloss: %d kills in %d runs of %d calls, each store that of the last call sent or of the next, %d of the next\n", killed, runs,
           calls, between);
    return 0;
}
