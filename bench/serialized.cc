// Times protobuf's serializer on the descriptor that its parser makes of a file.
// build: g++ -O2 -o /tmp/serialized bench/serialized.cc -lprotobuf   (Debian: libprotobuf-dev, libprotoc-dev)
// usage: /tmp/serialized FILE [TURNS]
#include <google/protobuf/compiler/parser.h>
#include <google/protobuf/descriptor.pb.h>
#include <google/protobuf/io/tokenizer.h>
#include <google/protobuf/io/zero_copy_stream_impl_lite.h>

#include <chrono>
#include <cstdio>
#include <cstdlib>
#include <fstream>
#include <sstream>
#include <string>

namespace pb = google::protobuf;

struct Silent : pb::io::ErrorCollector {
  void AddError(int, int, const std::string&) override {}
};

int main(int argc, char** argv) {
  if (argc < 2) return 2;
  std::ifstream file(argv[1], std::ios::binary);
  std::stringstream all;
  all << file.rdbuf();
  const std::string text = all.str();
  pb::io::ArrayInputStream stream(text.data(), static_cast<int>(text.size()));
  Silent errors;
  pb::io::Tokenizer tokenizer(&stream, &errors);
  pb::compiler::Parser parser;
  parser.RecordErrorsTo(&errors);
  pb::FileDescriptorProto descriptor;
  if (!parser.Parse(&tokenizer, &descriptor)) return 1;
  const int turns = argc > 2 ? std::atoi(argv[2]) : 1;
  size_t length = 0;
  for (int turn = 0; turn < turns; ++turn) {
    const auto begin = std::chrono::steady_clock::now();
    const std::string bytes = descriptor.SerializeAsString();
    const auto end = std::chrono::steady_clock::now();
    length = bytes.size();
    std::printf("%.3f ms\n", std::chrono::duration<double, std::milli>(end - begin).count());
  }
  std::printf("%zu bytes\n", length);
  return 0;
}
