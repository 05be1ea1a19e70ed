#include "incoming.h"

#include <algorithm>

#include <strings.h>

#include "head.h"
#include "refusal.h"

Framing framing_of(const Head& head) {
  size_t codings = head.count("Transfer-Encoding"), lengths = head.count("Content-Length");
  std::string length = head.value("Content-Length");
  if (codings > 0 && (lengths > 0 || head.is_old)) throw Refusal(400, "a body has one of Content-Length and Transfer-Encoding, and the latter in HTTP/1.1 only");
  if (codings > 1 || (codings == 1 && strcasecmp(head.value("Transfer-Encoding").c_str(), "chunked") != 0))
    throw Refusal(411, "send the body with Content-Length, or chunked");
  if (codings == 1) return {true, 0};
  bool is_number = lengths == 0 || (!length.empty() && length.find_first_not_of("0123456789") == std::string::npos);
  if (lengths > 1 || !is_number) throw Refusal(400, "Content-Length must be one number");
  if (length.size() > 7 || (lengths == 1 && std::stoul(length) > kBody)) throw Refusal(413, kLongBody);
  return {false, lengths == 1 ? std::stoul(length) : 0};
}

std::optional<Head> Incoming::take_head() {
  size_t size = size_of_head(received_, looked_at_);
  looked_at_ = received_.size();
  if (size == 0 && received_.size() >= kHead) refuse_long_head(received_);
  if (size == 0) return std::nullopt;
  Head head = read_head(received_.substr(0, size));
  received_.erase(0, size);
  looked_at_ = 0;
  chunks_ = Chunks();
  body.clear();
  return head;
}

bool Incoming::take_body(const Framing& framing) {
  if (framing.is_chunked) return chunks_.take(received_, body);
  size_t count = std::min(framing.length - body.size(), received_.size());
  body.append(received_, 0, count);
  received_.erase(0, count);
  return body.size() == framing.length;
}
