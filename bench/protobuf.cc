// Times protobuf's C++ library on a file, to compare with `parsecount` and `protoscan`.
// build: g++ -O2 -o /tmp/protobuf bench/protobuf.cc -lprotobuf   (Debian: libprotobuf-dev, libprotoc-dev)
// usage: /tmp/protobuf cut|keep|parse FILE [TURNS]
//   cut    its tokenizer alone
//   keep   its tokenizer, with each token put into a list
//   parse  its parser: from the text to a FileDescriptorProto with SourceCodeInfo; nothing is resolved
#include <google/protobuf/compiler/parser.h>
#include <google/protobuf/descriptor.pb.h>
#include <google/protobuf/io/tokenizer.h>
#include <google/protobuf/io/zero_copy_stream_impl_lite.h>

#include <chrono>
#include <cstdio>
#include <cstdlib>
#include <fstream>
#include <sstream>
#include <string>
#include <vector>

using google::protobuf::FileDescriptorProto;
using google::protobuf::compiler::Parser;
using google::protobuf::io::ArrayInputStream;
using google::protobuf::io::ErrorCollector;
using google::protobuf::io::Tokenizer;

struct Counting : ErrorCollector {
  size_t errors = 0;
  void AddError(int, int, const std::string&) override { ++errors; }
};

// How many tokens were cut, or locations made.
static size_t run(const std::string& text, const std::string& mode) {
  ArrayInputStream stream(text.data(), static_cast<int>(text.size()));
  Counting errors;
  Tokenizer tokenizer(&stream, &errors);
  if (mode == "parse") {
    Parser parser;
    parser.RecordErrorsTo(&errors);
    FileDescriptorProto file;
    if (!parser.Parse(&tokenizer, &file)) std::printf("refused, %zu errors\n", errors.errors);
    return file.source_code_info().location_size();
  }
  std::vector<Tokenizer::Token> kept;
  size_t count = 0;
  while (tokenizer.Next()) {
    ++count;
    if (mode == "keep") kept.push_back(tokenizer.current());
  }
  return count;
}

int main(int argc, char** argv) {
  if (argc < 3) return 2;
  std::ifstream file(argv[2], std::ios::binary);
  std::stringstream all;
  all << file.rdbuf();
  const std::string text = all.str();
  const int turns = argc > 3 ? std::atoi(argv[3]) : 1;
  for (int turn = 0; turn < turns; ++turn) {
    const auto begin = std::chrono::steady_clock::now();
    const size_t count = run(text, argv[1]);
    const std::chrono::duration<double> time = std::chrono::steady_clock::now() - begin;
    std::printf("%zu, %.3f s, %.0f MB/s\n", count, time.count(), text.size() / time.count() / 1e6);
  }
}
