/* Runs one of examples/c many times in one process: EXAMPLE is its source, and CALL how its main is called.
 *
 *     many JOBS    a file of jobs: a line of arguments, a line with a length, and so many bytes for standard input
 *
 * Of each job the length of what was written on standard output is told in a line, and then that. */
#define _POSIX_C_SOURCE 200809L
#include <stdio.h>
#include <stdlib.h>
#include <string.h>

#define main example
#include EXAMPLE
#undef main

enum { ARGUMENTS = 16, LONGEST = 1 << 20 };

/* One run on these bytes; what it writes is told. */
static int ran(char *words, char *bytes, size_t length, char **said, size_t *told)
{
    char *given[ARGUMENTS] = {"example"};
    int count = 1;
    for (char *word = strtok(words, " \n"); word && count < ARGUMENTS; word = strtok(NULL, " \n"))
        given[count++] = word;
    stdin = length ? fmemopen(bytes, length, "r") : fopen("/dev/null", "r");
    stdout = open_memstream(said, told);
    (void)given, (void)count;
    int status = CALL;
    fclose(stdin);
    fclose(stdout);
    return status;
}

int main(int count, char **given)
{
    static char words[256], number[32], bytes[LONGEST];
    FILE *jobs = count == 2 ? fopen(given[1], "rb") : NULL, *answers = stdout;
    int status = jobs ? 0 : 2;
    while (!status && fgets(words, sizeof words, jobs)) {
        char *said = NULL;
        size_t told = 0, length = fgets(number, sizeof number, jobs) ? strtoul(number, NULL, 10) : LONGEST + 1;
        if (length > LONGEST || fread(bytes, 1, length, jobs) != length)
            return 2;
        status = ran(words, bytes, length, &said, &told);
        fprintf(answers, "%zu\n", told);
        fwrite(said, 1, told, answers);
        free(said);
    }
    if (jobs)
        fclose(jobs);
    return fflush(answers) ? 3 : status;
}
