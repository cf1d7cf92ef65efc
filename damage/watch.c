/*
 * Runs the program `basis` as it was built, and judges what it prints.
 *
 *     watch PROGRAM < SHEET
 *
 * runs it once and exits with 0 if all was right, else with 1. Started by afl-fuzz, it serves as that fuzzer's fork server: it runs the
 * program on one input after the other. A wrong output is reported as if the program had been stopped by SIGABRT. The program is not
 * instrumented: what the fuzzer takes for new is a refusal, a number of the first line or a pair of them that was not printed before.
 */
#define _GNU_SOURCE
#include <fcntl.h>
#include <signal.h>
#include <stdbool.h>
#include <stdint.h>
#include <stdio.h>
#include <stdlib.h>
#include <string.h>
#include <sys/shm.h>
#include <sys/wait.h>
#include <unistd.h>

/* The fuzzer's descriptors, and the size of its map. */
enum { FROM_FUZZER = 198, TO_FUZZER = 199, MAP_BYTES = 65536 };
/* Longer listings are judged, but are not new to the fuzzer, which would come back to them. */
enum { LONG_LISTING = 5000 };

static uint8_t no_map[MAP_BYTES];
static uint8_t *map = no_map;

/* What has been printed so far. */
static struct {
    char first[128]; /* the first line */
    size_t first_len;
    uint64_t lines, words; /* whole lines, and words of the line that has begun */
    uint64_t number;       /* the first word of the line as a number */
    bool in_word, wrong, open;
} seen;

/* The numbers of the first line. */
static struct {
    unsigned refusal, vertices, edges, triangles, lambda, dim;
} told;

static void read_first_line(void)
{
    char again[128];
    memset(&told, 0, sizeof told);
    if (sscanf(seen.first, "refused %u", &told.refusal) == 1) {
        snprintf(again, sizeof again, "refused %u", told.refusal);
        seen.wrong |= strcmp(again, seen.first) != 0 || told.refusal < 1 || told.refusal > 10;
        return;
    }
    if (sscanf(seen.first, "vertices %u edges %u triangles %u lambda %u dim %u", &told.vertices, &told.edges, &told.triangles, &told.lambda,
               &told.dim) != 5) {
        seen.wrong = true;
        return;
    }
    snprintf(again, sizeof again, "vertices %u edges %u triangles %u lambda %u dim %u", told.vertices, told.edges, told.triangles, told.lambda, told.dim);
    seen.wrong |= strcmp(again, seen.first) != 0 || told.vertices < 1 || told.vertices > 64 || told.edges > 63 || told.triangles > 256 ||
                  told.lambda > 1000 || told.dim < 1 || told.dim > 1048576;
}

static void end_line(void)
{
    if (seen.lines == 0) {
        seen.first[seen.first_len] = 0;
        read_first_line();
    } else { /* a place, and a value for each edge */
        seen.wrong |= told.refusal != 0 || seen.number != seen.lines - 1 || seen.words != told.edges + 1;
    }
    seen.lines++;
    seen.words = seen.number = 0;
    seen.in_word = false;
}

static void take(const char *bytes, size_t n)
{
    for (size_t i = 0; i < n; i++) {
        char c = bytes[i];
        seen.open = c != '\n';
        if (c == '\n') {
            end_line();
        } else if (seen.lines == 0) {
            if (seen.first_len + 1 < sizeof seen.first)
                seen.first[seen.first_len++] = c;
            else
                seen.wrong = true;
        } else if (c == ' ') {
            seen.wrong |= !seen.in_word;
            seen.in_word = false;
        } else {
            seen.words += !seen.in_word;
            seen.in_word = true;
            seen.wrong |= (c < '0' || c > '9') && c != '-';
            if (seen.words == 1)
                seen.number = 10 * seen.number + (uint64_t)(c - '0');
        }
    }
}

/* Starts the program; its output and the digit of its status come through two pipes. */
static pid_t start(char *program, int *output, int *status)
{
    int out[2], digit[2];
    if (pipe2(out, O_CLOEXEC) != 0 || pipe2(digit, O_CLOEXEC) != 0)
        exit(2);
    pid_t child = fork();
    if (child == 0) {
        char *words[] = {program, "list", "--status", "3", NULL};
        int nowhere = open("/dev/null", O_WRONLY | O_CLOEXEC), kept = fcntl(digit[1], F_DUPFD_CLOEXEC, 10);
        dup2(out[1], 1);
        dup2(nowhere, 2);
        dup2(kept, 3);
        execv(program, words);
        _exit(127);
    }
    close(out[1]);
    close(digit[1]);
    *output = out[0];
    *status = digit[0];
    return child;
}

/* Reads and judges all that the program prints. Answers how it ended; a wrong output counts as SIGABRT. */
static int judge(pid_t child, int output, int status)
{
    static char bytes[65536];
    char digit[2];
    int ended = 0;
    memset(&seen, 0, sizeof seen);
    for (ssize_t n; (n = read(output, bytes, sizeof bytes)) > 0;)
        take(bytes, (size_t)n);
    ssize_t digits = read(status, digit, sizeof digit);
    close(output);
    close(status);
    if (child < 0 || waitpid(child, &ended, 0) < 0)
        exit(2);
    if (WIFSIGNALED(ended))
        return ended;
    bool right = !seen.wrong && !seen.open && seen.lines == (told.refusal ? 1 : (uint64_t)told.dim + 1) && seen.lines > 0;
    return right && WEXITSTATUS(ended) == 0 && digits == 1 && digit[0] == (told.refusal ? '1' : '0') ? 0 : SIGABRT;
}

static void mark(unsigned place)
{
    map[place % MAP_BYTES] = 1;
}

static void mark_output(int ended)
{
    unsigned size = 0;
    mark(0);
    if (ended != 0 || told.dim > LONG_LISTING)
        return;
    while (told.dim >> size)
        size++;
    mark(1 + told.refusal);
    if (told.refusal)
        return;
    mark(100 + (told.lambda < 40 ? told.lambda : 40));
    mark(200 + size);
    mark(300 + told.triangles);
    mark(1000 + 64 * told.vertices + told.edges);
    mark(8000 + 64 * told.edges + (told.triangles < 63 ? told.triangles : 63));
}

static void serve(char *program)
{
    uint32_t word = 0;
    const char *id = getenv("__AFL_SHM_ID");
    if (id) {
        void *shared = shmat(atoi(id), NULL, 0);
        if (shared != (void *)-1)
            map = shared;
    }
    fcntl(FROM_FUZZER, F_SETFD, FD_CLOEXEC);
    fcntl(TO_FUZZER, F_SETFD, FD_CLOEXEC);
    while (read(FROM_FUZZER, &word, 4) == 4) {
        int output, status;
        pid_t child = start(program, &output, &status);
        if (write(TO_FUZZER, &child, 4) != 4)
            exit(2);
        int ended = judge(child, output, status);
        mark_output(ended);
        if (write(TO_FUZZER, &ended, 4) != 4)
            exit(2);
    }
}

int main(int argc, char **argv)
{
    int output, status;
    if (argc != 2) {
        fprintf(stderr, "usage: watch PROGRAM < SHEET\n");
        return 2;
    }
    if (getenv("__AFL_SHM_ID") && write(TO_FUZZER, "\0\0\0\0", 4) == 4) {
        serve(argv[1]);
        return 0;
    }
    pid_t child = start(argv[1], &output, &status);
    int ended = judge(child, output, status);
    if (ended != 0)
        printf("watch: %s\n", ended == SIGABRT ? "not the output that it should be" : strsignal(WTERMSIG(ended)));
    return ended != 0;
}
