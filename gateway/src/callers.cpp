#include "callers.h"

#include <algorithm>
#include <iterator>
#include <optional>
#include <sstream>

#include <strings.h>

#include "refusal.h"
#include "translate.h"

namespace {

constexpr int kClockSkew = 5;  // seconds by which an issuer's clock may be ahead

[[noreturn]] void refuse_token(const std::string& why) { throw Refusal(401, "the token is not valid: " + why); }

// A part of a token that is a JSON object.
json object_of(const std::string& part) {
  auto text = base64url(part);
  if (!text) refuse_token("it is no base64url");
  try {
    return read_json(*text);
  } catch (const Refusal&) {
    refuse_token("a part is no JSON object");
  }
}

// A member that is a whole number of seconds, or with a fraction that is left out.
std::optional<double> moment_of(const json& claims, const char* name) {
  auto found = claims.find(name);
  if (found == claims.end() || found->is_null()) return std::nullopt;
  if (found->is_number_integer()) return found->get<double>();
  if (!found->is_binary()) refuse_token(std::string(name) + " is no number");
  return std::strtod(std::string(found->get_binary().begin(), found->get_binary().end()).c_str(), nullptr);
}

bool names(const json& claim, const std::string& wanted) {
  return claim == wanted || (claim.is_array() && std::find(claim.begin(), claim.end(), wanted) != claim.end());
}

}  // namespace

Callers::Callers(const Files& files) : issuer_(files.issuer), audience_(files.audience), keys_(files.keys, files.form) {
  for (const ServiceToken& it : read_token_file(files.tokens)) {
    subjects_.insert(it.sub);
    callers_.emplace(std::make_pair(it.sub, it.scopes), Caller{it.uss, it.text});
  }
}

std::string Callers::reader() const {
  auto found = std::find_if(callers_.begin(), callers_.end(), [](const auto& it) { return it.first.second.count("utm.strategic_coordination"); });
  return found == callers_.end() ? "" : found->second.token;
}

Caller Callers::caller(const std::string& authorization, std::time_t now) {
  if (strncasecmp(authorization.c_str(), "bearer ", 7) != 0) throw Refusal(401, "a bearer token is needed");
  std::string token = authorization.substr(std::min(authorization.find_first_not_of(' ', 7), authorization.size()));
  size_t first = token.find('.'), last = token.rfind('.');
  if (first == last || token.find('.', first + 1) != last) refuse_token("it has not three parts");
  // the header chooses nothing: what is not RS256 is refused, whatever its signature
  json header = object_of(token.substr(0, first));
  if (header.value("alg", json()) != "RS256") refuse_token("it is not signed by RS256");
  if (header.contains("crit")) refuse_token("it asks for extensions");
  auto signature = base64url(token.substr(last + 1));
  if (!signature || !keys_.have_signed(token.substr(0, last), *signature)) refuse_token("its signature is of no key that is known here");

  json claims = object_of(token.substr(first + 1, last - first - 1));
  if (claims.value("iss", json()) != issuer_) refuse_token("it is of another issuer");
  if (!names(claims.value("aud", json()), audience_)) refuse_token("it is for another audience");
  auto ends = moment_of(claims, "exp"), begins = moment_of(claims, "nbf");
  if (!ends) refuse_token("it has no exp");
  if (*ends <= double(now)) refuse_token("it has expired");
  if (begins && *begins > double(now) + kClockSkew) refuse_token("it is not yet valid");
  json sub = claims.value("sub", json()), scope = claims.value("scope", json(""));
  if (!sub.is_string() || !scope.is_string()) refuse_token("sub or scope is no text");
  std::istringstream words(scope.get<std::string>());
  Scopes scopes = known_scopes({std::istream_iterator<std::string>(words), {}});
  auto found = callers_.find({sub.get<std::string>(), scopes});
  if (found != callers_.end()) return found->second;
  throw Refusal(403, subjects_.count(sub.get<std::string>()) ? "the supplier has no token of the service with exactly these scopes: ask its operator"
                                                             : "the supplier is not known here: ask its operator");
}
