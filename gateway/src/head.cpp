#include "head.h"

#include <algorithm>
#include <cstdint>
#include <limits>

#include <boost/beast/http/empty_body.hpp>
#include <boost/beast/http/parser.hpp>
#include <strings.h>

#include "incoming.h"
#include "refusal.h"

namespace http = boost::beast::http;

namespace {

constexpr size_t kFields = 100;
constexpr size_t kLengthDigits = 7;
const std::string kNone = "the request is no request of HTTP/1.1 that is taken here";

bool is_digits(const std::string& text) { return !text.empty() && text.find_first_not_of("0123456789") == std::string::npos; }

// Whether the length of the body is a number too large for the library, of which it only says that it is wrong.
bool has_long_length(const std::string& bytes) {
  static const std::string name = "\r\ncontent-length:";
  auto same = [](char it, char other) { return std::tolower(static_cast<unsigned char>(it)) == other; };
  auto at = std::search(bytes.begin(), bytes.end(), name.begin(), name.end(), same);
  if (at == bytes.end()) return false;
  size_t from = bytes.find_first_not_of(' ', size_t(at - bytes.begin()) + name.size());
  std::string value = bytes.substr(from, bytes.find('\r', from) - from);
  return value.size() > kLengthDigits && is_digits(value);
}

}  // namespace

size_t Head::count(const char* name) const {
  return size_t(std::count_if(fields.begin(), fields.end(), [&](const auto& it) { return strcasecmp(it.first.c_str(), name) == 0; }));
}

std::string Head::value(const char* name) const {
  auto found = std::find_if(fields.begin(), fields.end(), [&](const auto& it) { return strcasecmp(it.first.c_str(), name) == 0; });
  return found == fields.end() ? "" : found->second;
}

bool Head::asks_to_close() const {
  for (const auto& [name, value] : fields) {
    if (strcasecmp(name.c_str(), "Connection") != 0) continue;
    for (size_t from = 0, to = 0; to != std::string::npos; from = to + 1) {
      to = value.find(',', from);
      std::string word = value.substr(from, to - from);
      word.erase(0, word.find_first_not_of(" \t"));
      word.erase(word.find_last_not_of(" \t") + 1);
      if (strcasecmp(word.c_str(), "close") == 0) return true;
    }
  }
  return false;
}

size_t size_of_head(const std::string& bytes, size_t looked_at) {
  size_t end = bytes.find("\r\n\r\n", looked_at < 3 ? 0 : looked_at - 3);
  return end == std::string::npos ? 0 : end + 4;
}

void refuse_long_head(const std::string& bytes) {
  // whatever else has arrived with them
  bool has_target = bytes.find("\r\n") <= kHead - 2;
  throw Refusal(has_target ? 400 : 414, has_target ? "a head has at most 8,192 bytes" : "the target is too long");
}

Head read_head(const std::string& bytes) {
  if (bytes.size() > kHead) refuse_long_head(bytes);
  // a folded line would be read as another value than it has
  if (bytes.find("\r\n ") != std::string::npos || bytes.find("\r\n\t") != std::string::npos) throw Refusal(400, kNone);
  http::request_parser<http::empty_body> parser;
  parser.header_limit(kHead + 1);
  parser.body_limit(std::numeric_limits<std::uint64_t>::max());  // which is looked at with the other fields
  boost::beast::error_code fault;
  parser.put(boost::asio::buffer(bytes), fault);
  if (fault == http::error::bad_content_length && has_long_length(bytes)) throw Refusal(413, kLongBody);
  if (fault || !parser.is_header_done()) throw Refusal(400, kNone);
  const auto& read = parser.get();
  Head head{std::string(read.method_string()), std::string(read.target()), {}};
  for (const auto& it : read) head.fields.emplace_back(std::string(it.name_string()), std::string(it.value()));
  if (head.fields.size() > kFields) throw Refusal(400, "a head has at most 100 fields");
  head.is_old = read.version() < 11;
  return head;
}
