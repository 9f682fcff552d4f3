// call FILE TURNS: protobuf's C++ library on the same: parses the file, and serializes its
// descriptor.
#include <google/protobuf/compiler/parser.h>
#include <google/protobuf/descriptor.pb.h>
#include <google/protobuf/io/tokenizer.h>
#include <google/protobuf/io/zero_copy_stream_impl_lite.h>
#include <algorithm>
#include <chrono>
#include <cstdio>
#include <cstdlib>
#include <fstream>
#include <sstream>
#include <vector>

namespace pb = google::protobuf;

static size_t called(const std::string &source)
{
  pb::FileDescriptorProto file;
  pb::io::ArrayInputStream input(source.data(), static_cast<int>(source.size()));
  pb::io::Tokenizer tokenizer(&input, nullptr);
  pb::compiler::Parser parser;
  if (!parser.Parse(&tokenizer, &file))
    std::exit(1);
  file.set_name("a.proto");
  std::string bytes;
  file.SerializeToString(&bytes);
  return bytes.size();
}

int main(int, char **words)
{
  std::ifstream stream(words[1], std::ios::binary);
  std::stringstream text;
  text << stream.rdbuf();
  const std::string source = text.str();
  const size_t turns = std::strtoul(words[2], nullptr, 10);
  std::vector<double> times;
  size_t len = 0;
  for (size_t i = 0; i < turns; i++) {
    const auto start = std::chrono::steady_clock::now();
    len = called(source);
    times.push_back(
      std::chrono::duration<double, std::micro>(std::chrono::steady_clock::now() - start).count());
  }
  if (turns == 0)
    return 0;
  std::sort(times.begin(), times.end());
  std::printf(
    "%zu bytes of source, %zu of its descriptor: shortest %.1f, median %.1f microseconds\n",
    source.size(), len, times[0], times[turns / 2]);
}
