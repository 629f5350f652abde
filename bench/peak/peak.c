// The greatest memory that a program takes: runs the words given, and writes the bytes to the file named first. A
// program's count begins with the memory of what started it, so that is to be small, as this is.
#include <stdio.h>
#include <sys/resource.h>
#include <sys/wait.h>
#include <unistd.h>

int main(int words, char **word) {
    if (words < 3) return 2;
    pid_t child = fork();
    if (child == 0) {
        execv(word[2], word + 2);
        _exit(127);
    }
    int status;
    struct rusage used;
    if (child < 0 || wait4(child, &status, 0, &used) != child || status != 0) return 1;
    FILE *file = fopen(word[1], "w");
    return file == NULL || fprintf(file, "%ld\n", used.ru_maxrss * 1024) < 0 || fclose(file) != 0;
}
