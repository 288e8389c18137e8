#include "checkpoint.h"

#include <errno.h>
#include <fcntl.h>
#include <stdlib.h>
#include <string.h>
#include <sys/stat.h>
#include <unistd.h>

#include "io.h"
#include "replace.h"

enum { VERSION = 1 };
static const char MAGIC[16] = "dezgula run\n";
/* more than the tables of any run take */
static const size_t MOST_KEPT = (size_t)1 << 34;

/* What the file begins with. The problem follows (coefficients, right sides, lower bound, groups), then the state, and last the sum of all that. */
typedef struct {
    char magic[16];
    uint64_t version, p, q, how, rights, lower, groups, state;
} head;

/* ---- the sum: CRC-64 (ECMA-182), bit by bit reversed, as xz has it */

static uint64_t sum_of(const void *bytes, size_t len)
{
    static uint64_t table[256];
    const unsigned char *at = bytes;
    if (table[1] == 0)
        for (unsigned i = 0; i < 256; i++) {
            uint64_t crc = i;
            for (int k = 0; k < 8; k++) crc = crc >> 1 ^ (crc & 1 ? UINT64_C(0xC96C5795D7870F42) : 0);
            table[i] = crc;
        }
    uint64_t crc = ~UINT64_C(0);
    for (size_t i = 0; i < len; i++) crc = table[(crc ^ at[i]) & 0xff] ^ crc >> 8;
    return ~crc;
}

/* ---- the problem as bytes */

typedef struct {
    char *bytes;
    size_t len;
} block;

static void append(block *b, const void *bytes, size_t len)
{
    if (len > 0) memcpy(b->bytes + b->len, bytes, len);
    b->len += len;
}

/* Room for the problem, a state and the sum, with head and problem written. No bytes: there is no memory. */
static block begin_block(const problem *what, size_t state)
{
    size_t coefs = what->p * what->q * sizeof *what->coefs, rights = what->rights != NULL ? what->p * sizeof *what->rights : 0;
    size_t lower = what->lower != NULL ? what->q * sizeof *what->lower : 0, groups = what->groups_len * sizeof *what->groups;
    head h = {.version = VERSION, .p = what->p, .q = what->q, .how = what->how, .groups = what->groups_len, .state = state};
    memcpy(h.magic, MAGIC, sizeof h.magic);
    h.rights = what->rights != NULL;
    h.lower = what->lower != NULL;
    block b = {malloc(sizeof h + coefs + rights + lower + groups + state + sizeof(uint64_t)), 0};
    if (b.bytes == NULL) return b;
    append(&b, &h, sizeof h);
    append(&b, what->coefs, coefs);
    append(&b, what->rights, rights);
    append(&b, what->lower, lower);
    append(&b, what->groups, groups);
    return b;
}

static block whole_block(const problem *what, const run *r)
{
    size_t len;
    block none = {NULL, 0};
    void *state = solve_state(r, &len);
    if (state == NULL) return none;
    block b = begin_block(what, len);
    if (b.bytes != NULL) {
        append(&b, state, len);
        uint64_t sum = sum_of(b.bytes, b.len);
        append(&b, &sum, sizeof sum);
    }
    free(state);
    return b;
}

/* ---- writing */

bool checkpoint_possible(const char *file)
{
    char place[MOST_NAME], temporary[MOST_NAME];
    struct stat about;
    if (!replace_places(file, place, temporary)) {
        io_say("the name of the checkpoint is too long");
        return false;
    }
    if (stat(place, &about) == 0 && !S_ISREG(about.st_mode)) {
        io_say("%s: a checkpoint is a regular file, and this is none", file);
        return false;
    }
    int descriptor = open(temporary, O_WRONLY | O_CREAT | O_CLOEXEC, 0666);
    if (descriptor < 0) {
        io_say("cannot write the checkpoint %s: %s", temporary, strerror(errno));
        return false;
    }
    close(descriptor);
    unlink(temporary);
    return true;
}

bool checkpoint_write(const char *file, const problem *what, const run *r, fault *why)
{
    block b = whole_block(what, r);
    if (b.bytes == NULL) return fault_set(why, 0, "the run cannot be kept in %s: there is no memory", file);
    bool written = replace_file(file, b.bytes, b.len);
    if (!written) fault_set(why, 0, "the run cannot be kept in %s: %s", file, strerror(errno));
    free(b.bytes);
    return written;
}

void checkpoint_remove(const char *file)
{
    char place[MOST_NAME], temporary[MOST_NAME];
    if (!replace_places(file, place, temporary)) return;
    unlink(place);
    unlink(temporary);
}

/* ---- reading */

/* Where in the bytes the state begins, if they are whole and of this problem. */
static bool find_state(const char *bytes, size_t len, const problem *what, size_t *at, fault *why)
{
    head h;
    uint64_t sum;
    if (len < sizeof MAGIC || memcmp(bytes, MAGIC, sizeof MAGIC) != 0)
        return fault_set(why, 0, "this is no kept run; name another file, or take this one away");
    if (len < sizeof h + sizeof sum) return fault_set(why, 0, "the kept run is cut off; take the file away to begin anew");
    memcpy(&h, bytes, sizeof h);
    if (h.version != VERSION) return fault_set(why, 0, "the kept run is of another version of dezgula; take the file away to begin anew");
    memcpy(&sum, bytes + len - sizeof sum, sizeof sum);
    if (sum != sum_of(bytes, len - sizeof sum)) return fault_set(why, 0, "the kept run is damaged or cut off; take the file away to begin anew");
    if (h.state > len) return fault_set(why, 0, "the kept run is damaged; take the file away to begin anew");
    block own = begin_block(what, (size_t)h.state);
    if (own.bytes == NULL) return fault_set(why, 0, "there is no memory for the kept run");
    bool same = own.len + h.state + sizeof sum == len && memcmp(own.bytes, bytes, own.len) == 0;
    *at = own.len;
    free(own.bytes);
    if (same) return true;
    return fault_set(why, 0, "the kept run is of another map, or was asked with other options; name another file, or take this one away");
}

run *checkpoint_read(const char *file, const problem *what, int *status)
{
    fault why = {0, ""};
    size_t len = 0, at = 0;
    *status = STATUS_COMPLETE;
    if (access(file, F_OK) != 0 && errno == ENOENT) return NULL;
    char *bytes = io_read(file, MOST_KEPT, &len, status);
    if (bytes == NULL) return NULL;
    run *kept = find_state(bytes, len, what, &at, &why) ? solve_restore(what, bytes + at, len - at - sizeof(uint64_t), &why) : NULL;
    free(bytes);
    *status = kept != NULL ? STATUS_COMPLETE : io_refuse(file, &why);
    return kept;
}
