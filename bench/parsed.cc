// Writes what protobuf's parser makes of a file as bytes, without source information.
// build: g++ -O2 -o /tmp/parsed bench/parsed.cc -lprotobuf   (Debian: libprotobuf-dev, libprotoc-dev)
// usage: /tmp/parsed FILE [--places]; status 1 where the file is refused; --places keeps source information
#include <google/protobuf/compiler/parser.h>
#include <google/protobuf/descriptor.pb.h>
#include <google/protobuf/io/tokenizer.h>
#include <google/protobuf/io/zero_copy_stream_impl_lite.h>

#include <cstdio>
#include <fstream>
#include <sstream>
#include <string>

namespace pb = google::protobuf;

struct Counting : pb::io::ErrorCollector {
  size_t errors = 0;
  void AddError(int, int, const std::string&) override { ++errors; }
};

int main(int argc, char** argv) {
  if (argc < 2) return 2;
  const std::string path = argv[1];
  std::ifstream file(path, std::ios::binary);
  if (!file) return 2;
  std::stringstream all;
  all << file.rdbuf();
  const std::string text = all.str();
  pb::io::ArrayInputStream stream(text.data(), static_cast<int>(text.size()));
  Counting errors;
  pb::io::Tokenizer tokenizer(&stream, &errors);
  pb::compiler::Parser parser;
  parser.RecordErrorsTo(&errors);
  pb::FileDescriptorProto descriptor;
  if (!parser.Parse(&tokenizer, &descriptor) || errors.errors > 0) return 1;
  if (argc < 3) descriptor.clear_source_code_info();
  descriptor.set_name(path.substr(path.rfind('/') + 1));
  const std::string bytes = descriptor.SerializeAsString();
  return std::fwrite(bytes.data(), 1, bytes.size(), stdout) == bytes.size() ? 0 : 2;
}
