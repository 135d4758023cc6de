/* SPDX-License-Identifier: Apache-2.0 */
/* lockstep PROGRAM: holds a machine against the model access by access, in C.
 *
 *     cc -o lockstep lockstep.c && ./lockstep ../aia
 *
 * The model is PROGRAM with the word `replay`. Here the machine is a list of accesses and of what
 * each of them read, of one that claims the wrong identity; yours calls `ask` for each access as it
 * makes it. Ends with status 1 and a message at the first answer that differs, else with 0; and
 * with 2 where the words are wrong, or the model can't be run, ends before its time or with another
 * status than 0, or takes more than a minute over an answer. With -h it says how it is run. */

#define _POSIX_C_SOURCE 200809L

#include <errno.h>
#include <signal.h>
#include <stdio.h>
#include <stdlib.h>
#include <string.h>
#include <sys/wait.h>
#include <unistd.h>

#define SECONDS 60 /* how long the model may take over an answer */

static FILE *lines, *answers; /* to the model, and from it */
static pid_t model;

static void end(int status, const char *line, const char *what, const char *mine)
{
    fprintf(stderr, "%s: %s%s%s\n", line, what, mine ? ", mine is " : "", mine ? mine : "");
    if (model > 0) {
        kill(model, SIGKILL);
        waitpid(model, NULL, 0);
    }
    exit(status);
}

/* Interrupts a read that takes too long. */
static void too_long(int number)
{
    (void)number;
}

/* Runs the model between two pipes. */
static void start(const char *program)
{
    int to[2], from[2];

    sigaction(SIGALRM, &(struct sigaction){.sa_handler = too_long}, NULL);
    signal(SIGPIPE, SIG_IGN); /* where the model has ended the read says so */
    if (pipe(to) || pipe(from))
        end(2, program, "there are no pipes", NULL);
    model = fork();
    if (model < 0)
        end(2, program, "there are no processes", NULL);
    if (!model) {
        dup2(to[0], 0);
        dup2(from[1], 1);
        close(to[0]), close(to[1]), close(from[0]), close(from[1]);
        execlp(program, program, "replay", (char *)NULL);
        end(2, program, "it can't be run", NULL);
    }
    close(to[0]), close(from[1]);
    lines = fdopen(to[1], "w");
    answers = fdopen(from[0], "r");
}

/* Says whether the script is wrong there, whatever the machine does. */
static int is_mistake(const char *answer)
{
    return !strcmp(answer, "bad") || !strcmp(answer, "nomachine") || !strcmp(answer, "again") ||
           !strcmp(answer, "range");
}

/* Hands the model a line, and compares its answer with mine; any is right where mine is "-". */
static void ask(const char *line, const char *mine)
{
    char answer[256], said[300], *got;

    fprintf(lines, "%s\n", line);
    fflush(lines);
    errno = 0;
    alarm(SECONDS);
    got = fgets(answer, sizeof answer, answers);
    alarm(0);
    if (!got && errno == EINTR)
        end(2, line, "the model takes too long over its answer", NULL);
    if (!got || !strchr(answer, '\n'))
        end(2, line, "the model has ended", NULL);
    answer[strcspn(answer, "\n")] = 0;
    if (!is_mistake(answer) && (!strcmp(mine, "-") || !strcmp(mine, answer)))
        return;
    snprintf(said, sizeof said, "the model says %s", answer);
    end(1, line, said, mine);
}

/* Closes the model's input, and waits for its end. */
static void leave(void)
{
    int status;

    fclose(lines);
    if (waitpid(model, &status, 0) < 0 || status)
        model = 0, end(2, "lockstep", "the model did not end with status 0", NULL);
}

int main(int count, char **words)
{
    if (count == 2 && (!strcmp(words[1], "-h") || !strcmp(words[1], "--help")))
        return printf("lockstep PROGRAM: holds a machine against the model PROGRAM\n") < 0;
    if (count != 2)
        end(2, "lockstep", "one word is wanted, the model's program", NULL);
    start(words[1]);
    ask("machine 1 0 63 1", "ok");
    ask("h 0 csrrw siselect 0xc0", "-");
    ask("h 0 csrrw sireg 0x28", "0x0000000000000000");
    ask("st 0x28000000 5", "ok");
    ask("st 0x28000000 3", "ok");
    ask("h 0 csrrw stopei 0", "0x0000000000030003");
    ask("h 0 csrr stopei", "0x0000000000030003");
    leave();
    return 0;
}
