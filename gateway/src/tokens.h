// The tokens that the service knows suppliers by, and the secret that they are made of.
#pragma once

#include <set>
#include <string>
#include <vector>

// What may be known of a supplier from outside is worked out of this, which nobody else has.
class Secret {
 public:
  explicit Secret(const std::string& file);
  // HMAC-SHA256, in hexadecimal.
  std::string mac(const std::string& text) const;

 private:
  std::string bytes_;
};

using Scopes = std::set<std::string>;

// Those of the words that are scopes of the service.
Scopes known_scopes(const std::vector<std::string>& words);

struct ServiceToken {
  std::string text, uss, sub;  // `sub` is the JWT's name of the supplier
  Scopes scopes;
};

// Of the service's own token file, in which a token may also have `sub`, where that is another name than `uss`.
std::vector<ServiceToken> read_token_file(const std::string& file);
// Such a file: for each supplier of a list, a token for each set of scopes.
std::string make_token_file(const Secret& secret, const std::string& suppliers);

// The bytes of a file, else a std::runtime_error that names it.
std::string contents(const std::string& file);
