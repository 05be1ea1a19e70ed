#include "chunks.h"

#include <algorithm>

#include "incoming.h"
#include "refusal.h"

namespace {

// The longest line, which is a size with its extensions, or a trailer; and the most digits of a size.
constexpr size_t kLine = 256, kDigits = 8;
// The most bytes of all lines of a body.
constexpr size_t kFraming = kBody;

[[noreturn]] void refuse() { throw Refusal(400, "the body is not chunked as HTTP/1.1 says"); }

// Returns the size that a line begins with.
size_t size_in(const std::string& line) {
  size_t end = std::min(line.find_first_not_of("0123456789abcdefABCDEF"), line.size());
  bool is_size = end > 0 && end <= kDigits && (end == line.size() || line[end] == ';');
  if (!is_size) refuse();
  return std::stoul(line.substr(0, end), nullptr, 16);
}

}  // namespace

bool Chunks::read_line(const std::string& line, size_t in_body) {
  framing_ += line.size() + 2;
  if (line.size() > kLine || line.find_first_of("\r\n") != std::string::npos) refuse();
  if (framing_ > kFraming) throw Refusal(413, "the body has too many small chunks");
  if (next_ == Line::trailer) return line.empty();
  if (next_ == Line::after_data) {
    if (!line.empty()) refuse();
    next_ = Line::size;
    return false;
  }
  left_ = size_in(line);
  if (left_ > kBody - in_body) throw Refusal(413, kLongBody);
  next_ = left_ > 0 ? Line::after_data : Line::trailer;
  return false;
}

bool Chunks::take(std::string& received, std::string& body) {
  size_t at = 0;
  bool is_whole = false;
  while (!is_whole) {
    size_t count = std::min(left_, received.size() - at);
    body.append(received, at, count);
    at += count;
    left_ -= count;
    size_t end = left_ > 0 ? std::string::npos : received.find("\r\n", at);
    if (end == std::string::npos) break;
    is_whole = read_line(received.substr(at, end - at), body.size());
    at = end + 2;
  }
  received.erase(0, at);
  // what is left is the beginning of a line; its last byte may be the first of its end
  if (!is_whole && received.size() > kLine + 1) refuse();
  return is_whole;
}
