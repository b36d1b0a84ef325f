/* Calls that are wrong, each in a process of its own: what is an error always, and what SMOLTCP_CHECK, with which this
 * is compiled too, ends by abort with a sentence. Exit status 0 when each ends as it should. */
#define _DEFAULT_SOURCE
#include <signal.h>
#include <stdio.h>
#include <string.h>
#include <sys/wait.h>
#include <unistd.h>

#include "smoltcp_host.h"
#include "smoltcp_helpers.h"

enum { ROOM = 512, WRONG = 77 };

static struct smoltcp_host host;
static struct smoltcp_tcp tcp;
static struct smoltcp_socket_id id;
static uint8_t rx[ROOM], tx[ROOM], packet[1500];

static void make(void) {
    if (smoltcp_tcp_init(&tcp, rx, ROOM, tx, ROOM) != SMOLTCP_OK) _exit(WRONG);
}

static void open_host(void) {
    static const struct smoltcp_key key = {{1}};
    struct smoltcp_cidr own = {{4, {10, 0, 0, 1}, {0}}, 24};
    if (smoltcp_host_init(&host, 2, &own, 1, &key) != SMOLTCP_OK) _exit(WRONG);
}

static struct smoltcp_tcp *borrow(void) {
    struct smoltcp_tcp *s;
    open_host();
    make();
    if (smoltcp_host_add_tcp(&host, &tcp, &id) != SMOLTCP_OK) _exit(WRONG);
    if (smoltcp_host_tcp(&host, &id, &s) != SMOLTCP_OK) _exit(WRONG);
    return s;
}

static int64_t released_twice(void) {
    make();
    if (smoltcp_tcp_release(&tcp, NULL, NULL) != SMOLTCP_OK) return WRONG;
    return smoltcp_tcp_release(&tcp, NULL, NULL);
}

static int64_t never_made(void) { return smoltcp_tcp_release(&tcp, NULL, NULL); }

static int64_t added_after_release(void) {
    open_host();
    make();
    if (smoltcp_tcp_release(&tcp, NULL, NULL) != SMOLTCP_OK) return WRONG;
    return smoltcp_host_add_tcp(&host, &tcp, &id);
}

static int64_t added_twice(void) {
    borrow();
    return smoltcp_host_add_tcp(&host, &tcp, &id);
}

static int64_t released_after_add(void) {
    borrow();
    return smoltcp_tcp_release(&tcp, NULL, NULL);
}

static int64_t host_released_twice(void) {
    open_host();
    if (smoltcp_host_release(&host) != SMOLTCP_OK) return WRONG;
    return smoltcp_host_release(&host);
}

static int64_t host_of_garbage(void) {
    memset(&host, 0x5a, sizeof host);
    return smoltcp_host_release(&host);
}

static int64_t host_moved(void) {
    static struct smoltcp_host other;
    open_host();
    memcpy(&other, &host, sizeof host);
    return smoltcp_host_release(&other);
}

static int64_t state_after_release(void) {
    make();
    smoltcp_tcp_release(&tcp, NULL, NULL);
    return smoltcp_tcp_state(&tcp);
}

static int64_t send_after_add(void) {
    borrow();
    return smoltcp_tcp_send(&tcp, packet, 1);
}

static int64_t emit_of_garbage(void) {
    memset(&host, 0x5a, sizeof host);
    return smoltcp_host_emit(&host, 0, packet, sizeof packet);
}

static int64_t release_of_a_borrowed_socket(void) { return smoltcp_tcp_release(borrow(), NULL, NULL); }

static int64_t poll_of_a_borrowed_socket(void) {
    struct smoltcp_context cx = {0, 1, 0, 1500, {10, 0, 0, 1}, {0}};
    return smoltcp_tcp_poll_at(borrow(), &cx);
}

static int64_t borrowed_too_long(void) {
    struct smoltcp_tcp *s = borrow();
    smoltcp_host_emit(&host, 0, packet, sizeof packet);
    return smoltcp_tcp_state(s);
}

static int64_t one_buffer_for_both(void) { return smoltcp_tcp_init(&tcp, rx, ROOM, rx + 1, ROOM - 1); }

static int64_t buffer_in_the_socket(void) { return smoltcp_tcp_init(&tcp, (uint8_t *)&tcp, 8, tx, ROOM); }

/* What is right, so that nothing is found where nothing is wrong. */
static int64_t right(void) {
    struct smoltcp_endpoint at = smoltcp_any(80);
    struct smoltcp_tcp *s = borrow();
    if (smoltcp_tcp_listen(s, &at) != SMOLTCP_OK || smoltcp_tcp_state(s) != SMOLTCP_LISTEN) return WRONG;
    if (smoltcp_host_emit(&host, 0, packet, sizeof packet) != 0) return WRONG;
    if (smoltcp_host_tcp(&host, &id, &s) != SMOLTCP_OK || smoltcp_tcp_close(s) != SMOLTCP_OK) return WRONG;
    if (smoltcp_host_remove_tcp(&host, &id, &tcp) != SMOLTCP_OK) return WRONG;
    if (smoltcp_tcp_send(&tcp, NULL, 0) != SMOLTCP_ERROR_STATE) return WRONG;
    if (smoltcp_tcp_release(&tcp, NULL, NULL) != SMOLTCP_OK) return WRONG;
    return smoltcp_host_release(&host);
}

/* What a call ends with: an error always, or, with SMOLTCP_CHECK, abort. */
struct row { const char *name; int64_t (*call)(void); int64_t answer; int found; };

#define ROW(call, answer, found) {#call, call, answer, found}
static const struct row rows[] = {
    ROW(right, SMOLTCP_OK, 0),
    ROW(released_twice, SMOLTCP_ERROR_STATE, 0),
    ROW(never_made, SMOLTCP_ERROR_STATE, 0),
    ROW(added_after_release, SMOLTCP_ERROR_STATE, 0),
    ROW(added_twice, SMOLTCP_ERROR_STATE, 0),
    ROW(released_after_add, SMOLTCP_ERROR_STATE, 0),
    ROW(host_released_twice, SMOLTCP_ERROR_STATE, 0),
    ROW(host_of_garbage, SMOLTCP_ERROR_STATE, 0),
    ROW(host_moved, SMOLTCP_ERROR_STATE, 0),
    ROW(state_after_release, 0, 1),
    ROW(send_after_add, 0, 1),
    ROW(emit_of_garbage, 0, 1),
    ROW(release_of_a_borrowed_socket, 0, 1),
    ROW(poll_of_a_borrowed_socket, 0, 1),
    ROW(borrowed_too_long, 0, 1),
    ROW(one_buffer_for_both, 0, 1),
    ROW(buffer_in_the_socket, 0, 1),
};

#ifdef SMOLTCP_CHECK
enum { CHECKED = 1 };
#else
enum { CHECKED = 0 };
#endif

/* Makes the call in a child; 1 when it ended as the row says. */
static int tried(const struct row *row) {
    int status = 0;
    pid_t child = fork();
    if (child == 0) {
        int64_t answer = row->call();
        if (row->found) _exit(WRONG);
        if (answer != row->answer) fprintf(stderr, "%s: %s\n", row->name, smoltcp_strerror(answer));
        _exit(answer == row->answer ? 0 : WRONG);
    }
    if (child < 0 || waitpid(child, &status, 0) != child) return 0;
    if (row->found) return WIFSIGNALED(status) && WTERMSIG(status) == SIGABRT;
    return WIFEXITED(status) && WEXITSTATUS(status) == 0;
}

int main(void) {
    size_t i, wrong = 0, done = 0;
    fflush(stdout);
    for (i = 0; i < sizeof rows / sizeof rows[0]; i++) {
        if (rows[i].found && !CHECKED) continue; /* nothing tests it then */
        done++;
        if (!tried(&rows[i])) printf("%s: not as it should be\n", rows[i].name), wrong++;
    }
    printf("%zu wrong calls, %zu not found\n", done, wrong);
    return wrong != 0;
}
