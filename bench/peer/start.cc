// Runs a program and prints its seconds of processor time, its KiB at the peak and its status.
//
// A process begins with the peak of the one that it was split off from. So a program whose peak is measured is started by this
// small one, and not by the script.
#include <fcntl.h>
#include <sys/resource.h>
#include <sys/wait.h>
#include <unistd.h>

#include <cstdio>

static double seconds(const timeval& time) { return time.tv_sec + time.tv_usec / 1e6; }

int main(int count, char** words) {
  if (count < 2) return 2;
  pid_t child = fork();
  if (child == 0) {
    int nowhere = open("/dev/null", O_WRONLY);
    dup2(nowhere, 1);
    dup2(nowhere, 2);
    execvp(words[1], words + 1);
    _exit(127);
  }
  int status;
  rusage used;
  if (child < 0 || wait4(child, &status, 0, &used) != child) return 1;
  int code = WIFEXITED(status) ? WEXITSTATUS(status) : -WTERMSIG(status);
  std::printf("%.6f %ld %d\n", seconds(used.ru_utime) + seconds(used.ru_stime), used.ru_maxrss, code);
  return 0;
}
