// Times two readers on the same bytes in memory: this library's Directory reader, and a Protocol Buffers parse, which is
// called in three ways: into a new message, into one message again and again, and into a message of a new arena. Each
// argument is a file that holds a canonical Directory. A ratio is of speeds: above 1.00 ours is the faster.
#include <time.h>

#include <cstdint>
#include <cstdio>
#include <cstdlib>
#include <fstream>
#include <iterator>
#include <string>

#include <google/protobuf/arena.h>

#include "directory.pb.h"

// 0 where the bytes are a canonical Directory, and else the refusal's number.
extern "C" uint8_t directory_refusal(const uint8_t* bytes, size_t length);

namespace {

const double SECONDS = 1.5;  // for each way and file
const int LEAST_ROUNDS = 15;
const int WAYS = 4;
const char* const NAMES[WAYS] = {"ours", "new message", "same message", "arena"};

bool ours(const std::string& bytes) {
  return directory_refusal(reinterpret_cast<const uint8_t*>(bytes.data()), bytes.size()) == 0;
}

bool new_message(const std::string& bytes) {
  Directory directory;
  return directory.ParseFromArray(bytes.data(), bytes.size());
}

bool same_message(const std::string& bytes) {
  static Directory directory;
  return directory.ParseFromArray(bytes.data(), bytes.size());
}

bool in_arena(const std::string& bytes) {
  google::protobuf::Arena arena;
  auto* directory = google::protobuf::Arena::CreateMessage<Directory>(&arena);
  return directory->ParseFromArray(bytes.data(), bytes.size());
}

bool (*const READERS[WAYS])(const std::string&) = {ours, new_message, same_message, in_arena};

double now() {
  timespec t;
  clock_gettime(CLOCK_THREAD_CPUTIME_ID, &t);
  return t.tv_sec + t.tv_nsec / 1e9;
}

void fail(const char* name, const char* what) {
  std::fprintf(stderr, "%s: %s\n", name, what);
  std::exit(1);
}

// Both sides must take the bytes, the peer must write the same again, and ours must see a change that the peer does not.
int check(const char* name, const std::string& bytes) {
  Directory directory;
  if (!ours(bytes)) fail(name, "refused by our reader");
  if (!directory.ParseFromArray(bytes.data(), bytes.size())) fail(name, "refused by the peer");
  std::string again;
  if (!directory.SerializeToString(&again) || again != bytes) fail(name, "the peer writes other bytes");
  std::string changed = bytes;
  const size_t hash = changed.find("\x0A\x40", changed.size() / 2);
  if (hash == std::string::npos) fail(name, "has no hash text");
  changed[hash + 2] = 'A';
  if (ours(changed) || !new_message(changed)) fail(name, "a wrong hash text is not told apart");
  return directory.files_size() + directory.directories_size() + directory.symlinks_size();
}

}  // namespace

int main(int argc, char** argv) {
  std::printf("%-12s %6s %8s | %22s", "", "", "", NAMES[0]);
  for (int w = 1; w < WAYS; w++) std::printf(" | %19s", NAMES[w]);
  std::printf("\n%-12s %6s %8s | %7s %5s %8s", "file", "nodes", "bytes", "ms", "MB/s", "ns/node");
  for (int w = 1; w < WAYS; w++) std::printf(" | %7s %5s %5s", "ms", "MB/s", "ratio");
  std::printf("\n");
  for (int i = 1; i < argc; i++) {
    std::ifstream in(argv[i], std::ios::binary);
    if (!in) fail(argv[i], "cannot be read");
    const std::string bytes{std::istreambuf_iterator<char>(in), {}};
    const int nodes = check(argv[i], bytes);
    double least[WAYS], spent = 0;
    // In turns, so that a slow while of the machine falls on all.
    for (int round = 0; round < LEAST_ROUNDS || spent < SECONDS * WAYS; round++) {
      for (int w = 0; w < WAYS; w++) {
        const double start = now();
        if (!READERS[w](bytes)) fail(argv[i], NAMES[w]);
        const double time = now() - start;
        spent += time;
        if (round == 0 || time < least[w]) least[w] = time;
      }
    }
    const double mb = bytes.size() / 1e6;
    std::printf("%-12s %6d %8zu | %7.3f %5.0f %8.1f", argv[i], nodes, bytes.size(), least[0] * 1e3, mb / least[0], least[0] * 1e9 / nodes);
    for (int w = 1; w < WAYS; w++) std::printf(" | %7.3f %5.0f %5.2f", least[w] * 1e3, mb / least[w], least[w] / least[0]);
    std::printf("\n");
    std::fflush(stdout);
  }
}
