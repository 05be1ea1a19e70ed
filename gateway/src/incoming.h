// The requests that a client sends on one connection, read from its bytes one after the other.
#pragma once

#include <cstddef>
#include <optional>
#include <string>

#include "chunks.h"
#include "http.h"

// The longest body, and what a Refusal of a longer one says.
constexpr size_t kBody = 1 << 20;
constexpr const char* kLongBody = "a body has at most 1,048,576 bytes";

// How a body ends.
struct Framing {
  bool is_chunked = false;
  size_t length = 0;

  bool has_body() const { return is_chunked || length > 0; }
};

// Returns how the body after a head ends. Throws a Refusal if the fields leave it open, or for another transfer coding.
Framing framing_of(const Head& head);

class Incoming {
 public:
  // Appends bytes that have arrived.
  void add(const char* bytes, size_t count) { received_.append(bytes, count); }
  // Returns true if nothing of a next request has arrived.
  bool is_empty() const { return received_.empty(); }

  // Returns the head of the next request, or none if it has not arrived whole. Throws a Refusal if it is malformed or too long.
  std::optional<Head> take_head();
  // Moves the bytes that have arrived to `body`. Returns true once the body of the last head is whole. Throws a Refusal as Chunks does.
  bool take_body(const Framing& framing);

  // The body of the last head, as far as `take_body` has read it.
  std::string body;

 private:
  std::string received_;
  size_t looked_at_ = 0;  // bytes without the end of a head
  Chunks chunks_;
};
