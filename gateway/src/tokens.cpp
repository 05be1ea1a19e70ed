#include "tokens.h"

#include <algorithm>
#include <fstream>
#include <sstream>

#include <openssl/evp.h>
#include <openssl/hmac.h>
#include <toml.hpp>

#include "translate.h"

namespace {

const std::vector<std::string> kScopes = {"utm.strategic_coordination", "utm.conformance_monitoring_sa", "utm.constraint_processing",
                                          "utm.constraint_management", "utm.availability_arbitration"};

}  // namespace

std::string contents(const std::string& file) {
  std::ifstream in(file, std::ios::binary);
  std::string bytes{std::istreambuf_iterator<char>(in), {}};
  if (!in.is_open() || in.bad()) throw std::runtime_error(file + ": cannot be read");
  return bytes;
}

Secret::Secret(const std::string& file) : bytes_(contents(file)) {
  if (bytes_.size() < 32) throw std::runtime_error(file + ": a secret has 32 bytes or more");
}

std::string Secret::mac(const std::string& text) const {
  unsigned char bytes[EVP_MAX_MD_SIZE];
  unsigned size = 0;
  if (!HMAC(EVP_sha256(), bytes_.data(), int(bytes_.size()), reinterpret_cast<const unsigned char*>(text.data()), text.size(), bytes, &size))
    throw std::runtime_error("HMAC-SHA256 cannot be had");
  std::string digits;
  for (unsigned k = 0; k < size; k++) digits += {"0123456789abcdef"[bytes[k] >> 4], "0123456789abcdef"[bytes[k] & 15]};
  return digits;
}

Scopes known_scopes(const std::vector<std::string>& words) {
  Scopes scopes;
  for (const std::string& scope : kScopes)
    if (std::find(words.begin(), words.end(), scope) != words.end()) scopes.insert(scope);
  return scopes;
}

std::vector<ServiceToken> read_token_file(const std::string& file) {
  std::istringstream text(contents(file));
  std::vector<ServiceToken> tokens;
  try {
    auto table = toml::parse(text, file);
    for (const auto& it : toml::find<toml::array>(table, "token")) {
      auto uss = toml::find<std::string>(it, "uss");
      tokens.push_back({toml::find<std::string>(it, "text"), uss, toml::find_or(it, "sub", uss),
                        known_scopes(toml::find<std::vector<std::string>>(it, "scopes"))});
    }
  } catch (const std::exception&) {
    // what it says spans lines, and shows tokens
    throw std::runtime_error(file + ": is no token file");
  }
  return tokens;
}

std::string make_token_file(const Secret& secret, const std::string& suppliers) {
  std::ostringstream out;
  out << "# Made by `gateway tokens`.\nsalt = \"" << secret.mac("salt").substr(0, 32) << "\"\n";
  std::istringstream lines(suppliers);
  for (std::string line; std::getline(lines, line);) {
    std::istringstream words(line.substr(0, line.find('#')));
    std::string uss, sub, more;
    if (!(words >> uss)) continue;
    if (!(words >> sub)) sub = uss;
    if (!is_uss(uss) || words >> more || sub.find_first_of("\"\\") != std::string::npos)
      throw std::runtime_error("a line of the suppliers is not `USS [SUB]`: " + line);
    for (unsigned set = 0; set < 1u << kScopes.size(); set++) {
      std::string scopes;
      for (size_t k = 0; k < kScopes.size(); k++)
        if (set >> k & 1) scopes += (scopes.empty() ? "\"" : ", \"") + kScopes[k] + "\"";
      out << "\n[[token]]\ntext = \"" << secret.mac("token|" + uss + "|" + sub + "|" + scopes) << "\"\nuss = \"" << uss << "\"\n";
      // the service warns of a key that it does not read
      if (sub != uss) out << "sub = \"" << sub << "\"\n";
      out << "scopes = [" << scopes << "]\n";
    }
  }
  return out.str();
}
