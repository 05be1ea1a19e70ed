// The issuer's public keys, read anew when their file changes.
#pragma once

#include <chrono>
#include <ctime>
#include <memory>
#include <optional>
#include <string>
#include <tuple>
#include <vector>

#include <openssl/evp.h>

// The bytes of a text in base64url without padding.
std::optional<std::string> base64url(const std::string& text);

class Keys {
 public:
  enum class Form { pem, jwks };
  // Of a file, else a std::runtime_error that names it.
  Keys(const std::string& file, Form form);

  // Whether one of them has signed a text by RS256. On one thread, which looks at the file once a second.
  bool have_signed(const std::string& text, const std::string& signature);

 private:
  using Key = std::unique_ptr<EVP_PKEY, decltype(&EVP_PKEY_free)>;
  // What differs between a file and the one that replaces it, or that it is changed to.
  using Mark = std::tuple<ino_t, off_t, time_t, long>;

  Mark mark() const;
  std::vector<Key> read() const;
  std::vector<Key> of_pem(const std::string& text) const;
  std::vector<Key> of_jwks(const std::string& text) const;
  Key checked(EVP_PKEY* key) const;
  void look();

  std::string file_;
  Form form_;
  Mark mark_;
  std::vector<Key> keys_;
  std::chrono::steady_clock::time_point looked_;
};
