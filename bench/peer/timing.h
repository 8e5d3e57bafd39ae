// What both programs share: files, and the time that a job takes.
#include <algorithm>
#include <cstdio>
#include <ctime>
#include <fstream>
#include <string>

inline std::string read_file(const char *name) {
  std::ifstream file(name, std::ios::binary | std::ios::ate);
  if (!file) return {};
  std::string bytes(file.tellg(), '\0');
  file.seekg(0).read(bytes.data(), bytes.size());
  return bytes;
}

inline void write_file(const char *name, const void *bytes, size_t size) {
  std::ofstream(name, std::ios::binary).write(static_cast<const char *>(bytes), size);
}

inline double processor_time() {
  timespec time;
  clock_gettime(CLOCK_THREAD_CPUTIME_ID, &time);
  return time.tv_sec * 1e6 + time.tv_nsec / 1e3;
}

// Prints a job's name and the least processor time that it took over so many rounds, in microseconds. What a round
// makes is gone before the next, outside its time.
template <class Job>
void print_least(const char *name, int rounds, Job job) {
  double least = 1e12;
  for (int i = 0; i < rounds; i++) {
    double begun = processor_time();
    [[maybe_unused]] auto made = job();
    least = std::min(least, processor_time() - begun);
  }
  std::printf("%s %.0f\n", name, least);
}
