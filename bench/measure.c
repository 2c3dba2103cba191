/* Runs a program on a file as its standard input, as often as half a second allows and five times at least, where five
   seconds allow that, and prints the least nanoseconds of a run, the peak KiB and the status, which each run must share.
   The environment may name another span than half a second as MEASURE_SPAN, in milliseconds; ten spans stand for the five seconds then.
   A small process starts it, so that the peak is its own. A run that takes longer than the seconds that the environment
   names as MEASURE_SECONDS is ended, and then nothing is printed. */
#include <fcntl.h>
#include <stdio.h>
#include <stdlib.h>
#include <sys/resource.h>
#include <sys/wait.h>
#include <time.h>
#include <unistd.h>

static long long now(void) {
    struct timespec t;
    clock_gettime(CLOCK_MONOTONIC, &t);
    return t.tv_sec * 1000000000LL + t.tv_nsec;
}

int main(int count, char **words) {
    const char *named = getenv("MEASURE_SPAN");
    long long span = (named ? atoi(named) : 500) * 1000000LL;
    long long least = -1, begin = now();
    long peak = 0;
    int answer = -1;
    if (count < 3) return 2;
    for (int runs = 0; runs == 0 || now() - begin < (runs < 5 ? 10 * span : span); runs++) {
        int status;
        struct rusage usage;
        long long start = now();
        pid_t child = fork();
        if (child == 0) {
            dup2(open(words[1], O_RDONLY), 0);
            dup2(open("/dev/null", O_WRONLY), 1);
            dup2(1, 2);
            if (getenv("MEASURE_SECONDS")) alarm(atoi(getenv("MEASURE_SECONDS")));
            execv(words[2], words + 2);
            _exit(127);
        }
        if (child < 0 || wait4(child, &status, 0, &usage) < 0 || !WIFEXITED(status)) return 1;
        if (answer >= 0 && WEXITSTATUS(status) != answer) return 1;
        answer = WEXITSTATUS(status);
        long long taken = now() - start;
        if (least < 0 || taken < least) least = taken;
        if (usage.ru_maxrss > peak) peak = usage.ru_maxrss;
    }
    printf("%lld %ld %d\n", least, peak, answer);
    return 0;
}
