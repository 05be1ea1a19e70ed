// The transfer coding `chunked` of a body (RFC 9112, section 7.1).
#pragma once

#include <cstddef>
#include <string>

class Chunks {
 public:
  // Moves the chunks that have arrived from the front of `received` to the end of `body`. Returns true once the body is whole, with its
  // trailers, which are dropped. Throws a Refusal if the bytes are no chunks (400), or the body or its framing is too long (413).
  bool take(std::string& received, std::string& body);

 private:
  enum class Line { size, after_data, trailer };

  // Reads a line without its end. Returns true if it is the last one.
  bool read_line(const std::string& line, size_t in_body);

  Line next_ = Line::size;
  size_t left_ = 0;     // bytes of the present chunk that have not arrived
  size_t framing_ = 0;  // bytes of all lines
};
