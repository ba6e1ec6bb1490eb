// Parses the same registration many times with Google's protobuf, down to the hop fields, as pathd does.
// Usage: protobuf_parse FILE TIMES, FILE being one frame: four bytes of length, a kind, a message. Prints the seconds of
// processor time, and a sum that keeps the loop from being left out.
#include <cstdint>
#include <cstdio>
#include <cstdlib>
#include <ctime>
#include <fstream>
#include <iterator>
#include <string>

#include "segments.pb.h"

static double processor_seconds() {
  timespec now;
  clock_gettime(CLOCK_PROCESS_CPUTIME_ID, &now);
  return now.tv_sec + now.tv_nsec / 1e9;
}

static uint64_t parse(const std::string &message) {
  uint64_t sum = 0;
  pathd::SegmentsRegistrationRequest request;
  if (!request.ParseFromString(message)) std::abort();
  for (const auto &entry : request.segments()) {
    for (const auto &segment : entry.second.segments()) {
      pathd::SegmentInformation info;
      if (!info.ParseFromString(segment.segment_info())) std::abort();
      sum += info.timestamp();
      for (const auto &as_entry : segment.as_entries()) {
        pathd::HeaderAndBody signed_part;
        if (!signed_part.ParseFromString(as_entry.signed_().header_and_body())) std::abort();
        pathd::ASEntrySignedBody body;
        if (!body.ParseFromString(signed_part.body())) std::abort();
        sum += body.hop_entry().hop_field().ingress() + body.hop_entry().hop_field().egress();
      }
    }
  }
  return sum;
}

int main(int count, char **words) {
  if (count != 3) return 2;
  std::ifstream file(words[1], std::ios::binary);
  const std::string frame((std::istreambuf_iterator<char>(file)), std::istreambuf_iterator<char>());
  const std::string message = frame.substr(5);
  const int times = std::atoi(words[2]);
  uint64_t sum = 0;
  const double start = processor_seconds();
  for (int i = 0; i < times; i++) sum += parse(message);
  const double took = processor_seconds() - start;
  std::printf("%.6f %llu\n", took, static_cast<unsigned long long>(sum));
  return 0;
}
