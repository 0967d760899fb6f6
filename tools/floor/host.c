/* The least that a host costs: it starts one remote, gets it ready, and asks it for each key of the input. It believes whatever comes.
   Use: host REMOTE [IN_FLIGHT [NAME=VALUE ..]] < keys

   It asks for so many keys at once, with tags; for one after the other without tags if IN_FLIGHT is 0 or left out. A question for a
   setting is answered by its NAME=VALUE. The last line on standard error is what the remote cost: seconds of processor time, context
   switches, and kilobytes of memory at its most. */
#define _GNU_SOURCE
#include <stdio.h>
#include <stdlib.h>
#include <string.h>
#include <sys/resource.h>
#include <sys/wait.h>
#include <unistd.h>

enum { ROOM = 1 << 17, MOST = 64 };

static FILE *from_remote, *to_remote;
static char heard[ROOM], key[ROOM];
static char **settings;

static void cut_end(char *line) { line[strcspn(line, "\n")] = '\0'; }

static int begins(const char *text, const char *start) { return strncmp(text, start, strlen(start)) == 0; }

static const char *value_of(const char *name) {
    size_t length = strlen(name);
    for (char **setting = settings; *setting != NULL; setting++)
        if (begins(*setting, name) && (*setting)[length] == '=') return *setting + length + 1;
    return "";
}

/* The next line that is no remark, without its tag, whose number it gives; 0 where it has none. */
static char *listen(int *number) {
    for (;;) {
        if (fgets(heard, ROOM, from_remote) == NULL) exit(1);
        cut_end(heard);
        char *text = heard;
        *number = 0;
        if (begins(heard, "J ")) {
            *number = (int)strtol(heard + 2, &text, 10);
            text++;
        }
        if (!begins(text, "DEBUG ") && !begins(text, "INFO ")) return text;
    }
}

/* Asks, answers questions for settings, and gives the answer. */
static const char *ask(const char *tag, const char *request, const char *parameter) {
    int number;
    fprintf(to_remote, "%s%s%s\n", tag, request, parameter);
    for (;;) {
        fflush(to_remote);
        char *text = listen(&number);
        if (!begins(text, "GETCONFIG ")) return text;
        fprintf(to_remote, "%sVALUE %s\n", tag, value_of(text + 10));
    }
}

static pid_t start(const char *program) {
    int there[2], back[2];
    if (pipe(there) != 0 || pipe(back) != 0) exit(1);
    pid_t child = fork();
    if (child == 0) {
        dup2(there[0], STDIN_FILENO);
        dup2(back[1], STDOUT_FILENO);
        close(there[1]);
        close(back[0]);
        execlp(program, program, (char *)NULL);
        _exit(127);
    }
    close(there[0]);
    close(back[1]);
    to_remote = fdopen(there[1], "w");
    from_remote = fdopen(back[0], "r");
    return child;
}

static int next_key(void) {
    if (fgets(key, ROOM, stdin) == NULL) return 0;
    cut_end(key);
    return 1;
}

static const char *meaning(const char *answer) { return begins(answer, "CHECKPRESENT-SUCCESS ") ? "present" : "absent"; }

static void check_in_turn(void) {
    for (long task = 1; next_key(); task++) printf("%ld %s\n", task, meaning(ask("", "CHECKPRESENT ", key)));
}

static void check_at_once(int most) {
    long task_of[MOST + 2], tasks = 0;
    int open = 0, number;
    for (; open < most && next_key(); open++) {
        task_of[open + 2] = ++tasks;
        fprintf(to_remote, "J %d CHECKPRESENT %s\n", open + 2, key);
    }
    while (open > 0) {
        fflush(to_remote);
        const char *answer = meaning(listen(&number));
        if (number < 2 || number > most + 1) exit(1);
        printf("%ld %s\n", task_of[number], answer);
        if (next_key()) {
            task_of[number] = ++tasks;
            fprintf(to_remote, "J %d CHECKPRESENT %s\n", number, key);
        } else {
            open--;
        }
    }
}

int main(int count, char **words) {
    if (count < 2) return 2;
    int at_once = count > 2 ? atoi(words[2]) : 0, number;
    settings = words + (count > 2 ? 3 : 2);
    if (at_once > MOST) return 2;
    pid_t child = start(words[1]);
    listen(&number);
    ask("", at_once ? "EXTENSIONS INFO ASYNC" : "EXTENSIONS INFO", "");
    ask(at_once ? "J 1 " : "", "PREPARE", "");
    if (at_once) check_at_once(at_once);
    else check_in_turn();
    fclose(to_remote);
    struct rusage used;
    int status;
    if (wait4(child, &status, 0, &used) != child) return 1;
    fprintf(stderr, "%.6f %ld %ld\n", used.ru_utime.tv_sec + used.ru_stime.tv_sec + (used.ru_utime.tv_usec + used.ru_stime.tv_usec) / 1e6,
            used.ru_nvcsw + used.ru_nivcsw, used.ru_maxrss);
    return WIFEXITED(status) ? WEXITSTATUS(status) : 1;
}
