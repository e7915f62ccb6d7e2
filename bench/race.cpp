// Reads documents with each parser by turns, and prints how many megabytes a second each reads. The script run builds this.
// A peer is there if its header is. Each turn parses the complete document into its values and frees them.
#include <cstdint>
#include <cstdio>
#include <cstring>
#include <ctime>
#include <fstream>
#include <iterator>
#include <string>
#include <vector>

#include "../ffi/jiter_c.h"
#if __has_include(<jansson.h>)
#include <jansson.h>
#endif
#if __has_include(<cjson/cJSON.h>)
#include <cjson/cJSON.h>
#endif
#if __has_include(<simdjson.h>)
#include <simdjson.h>
#endif
#if __has_include(<rapidjson/document.h>)
#include <rapidjson/document.h>
#endif

// Returns whether the bytes are a document. After them are 64 more bytes, which are zero.
using Parse = bool (*)(const char *bytes, size_t length);

struct Peer {
  const char *name;
  Parse parse;
};

// Bytes as the header's pointer type has them.
struct Bytes {
  const char *begin;
  operator const char *() const { return begin; }
  operator const uint8_t *() const { return reinterpret_cast<const uint8_t *>(begin); }
};

static bool jiter(const char *bytes, size_t length) {
  JiterFault fault;
  return jiter_parse(Bytes{bytes}, length, false, JITER_OFF, &fault);
}

static const std::vector<Peer> peers = {
    {"jiter", jiter},
#if __has_include(<jansson.h>)
    {"jansson", [](const char *bytes, size_t length) {
       json_t *value = json_loadb(bytes, length, JSON_DECODE_ANY, nullptr);
       json_decref(value);
       return value != nullptr;
     }},
#endif
#if __has_include(<cjson/cJSON.h>)
    {"cJSON", [](const char *bytes, size_t length) {
       cJSON *value = cJSON_ParseWithLength(bytes, length);
       cJSON_Delete(value);
       return value != nullptr;
     }},
#endif
#if __has_include(<simdjson.h>)
    {"simdjson", [](const char *bytes, size_t length) {
       static simdjson::dom::parser parser;  // it keeps its buffers, as its authors advise
       return parser.parse(bytes, length, false).error() == simdjson::SUCCESS;
     }},
#endif
#if __has_include(<rapidjson/document.h>)
    {"rapidjson", [](const char *bytes, size_t length) {
       rapidjson::Document value;
       value.Parse<rapidjson::kParseValidateEncodingFlag>(bytes, length);
       return !value.HasParseError();
     }},
#endif
};

// Processor time of this thread, in seconds: other programs on the machine count little.
static double now() {
  timespec time;
  clock_gettime(CLOCK_THREAD_CPUTIME_ID, &time);
  return time.tv_sec + time.tv_nsec / 1e9;
}

// Returns the seconds of the fastest of many readings, for each peer. The order of the peers turns each round.
static std::vector<double> race(const std::string &document, double seconds) {
  std::vector<double> best(peers.size(), 1e9);
  const double end = now() + seconds;
  for (size_t round = 0; round < 5 || now() < end; round++) {
    for (size_t it = 0; it < peers.size(); it++) {
      const size_t turn = (it + round) % peers.size();
      const double begin = now();
      const bool is_document = peers[turn].parse(document.data(), document.size() - 64);
      const double time = now() - begin;
      if (!is_document) {
        std::fprintf(stderr, "race: %s reports an error\n", peers[turn].name);
        best[turn] = 0;
      } else if (time < best[turn]) {
        best[turn] = time;
      }
    }
  }
  return best;
}

int main(int count, char **words) {
  if (count < 3) {
    std::fprintf(stderr, "usage: race SECONDS FILE..\n");
    return 2;
  }
  for (const Peer &peer : peers)
    std::printf("%s%s", peer.name, &peer == &peers.back() ? "\n" : "\t");
  for (int file = 2; file < count; file++) {
    std::ifstream in(words[file], std::ios::binary);
    std::string document((std::istreambuf_iterator<char>(in)), std::istreambuf_iterator<char>());
    const size_t length = document.size();
    document.append(64, '\0');
    const std::vector<double> best = race(document, std::stod(words[1]));
    std::printf("%s", words[file]);
    for (double time : best)
      std::printf("\t%.1f", time > 0 ? length / time / 1e6 : 0.0);
    std::printf("\n");
  }
}
