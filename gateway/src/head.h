// The head of a request, read from its bytes.
#pragma once

#include <string>

#include "http.h"

// The most bytes of a head.
constexpr size_t kHead = 8192;

// The size of the head that the bytes begin with, or 0 where its end has not come. `looked_at` were there before.
size_t size_of_head(const std::string& bytes, size_t looked_at);

// The head of these bytes, which are a whole one; a Refusal where it is none of HTTP/1.1 or 1.0, or beyond the bounds.
Head read_head(const std::string& bytes);

// A Refusal of bytes that are as long as a head may be, and have no end of one.
[[noreturn]] void refuse_long_head(const std::string& bytes);
