#include "keys.h"

#include <algorithm>
#include <iostream>

#include <openssl/core_names.h>
#include <openssl/param_build.h>
#include <openssl/pem.h>
#include <sys/stat.h>

#include "tokens.h"
#include "translate.h"

namespace {

constexpr int kLeastKeyBits = 2048;
constexpr size_t kMost = 64;
constexpr std::chrono::seconds kEvery(1);

bool is_sound(EVP_PKEY* key) {
  std::unique_ptr<EVP_PKEY_CTX, decltype(&EVP_PKEY_CTX_free)> context(EVP_PKEY_CTX_new_from_pkey(nullptr, key, nullptr), EVP_PKEY_CTX_free);
  return context && EVP_PKEY_public_check(context.get()) == 1;
}

// The public key of a modulus and an exponent, as bytes; none where they are no numbers of one.
EVP_PKEY* rsa_of(const std::string& modulus, const std::string& exponent) {
  auto number = [](const std::string& bytes) {
    return std::unique_ptr<BIGNUM, decltype(&BN_free)>(BN_bin2bn(reinterpret_cast<const unsigned char*>(bytes.data()), int(bytes.size()), nullptr), BN_free);
  };
  auto n = number(modulus), e = number(exponent);
  std::unique_ptr<OSSL_PARAM_BLD, decltype(&OSSL_PARAM_BLD_free)> parts(OSSL_PARAM_BLD_new(), OSSL_PARAM_BLD_free);
  bool is_built = n && e && parts && OSSL_PARAM_BLD_push_BN(parts.get(), OSSL_PKEY_PARAM_RSA_N, n.get()) == 1 &&
                  OSSL_PARAM_BLD_push_BN(parts.get(), OSSL_PKEY_PARAM_RSA_E, e.get()) == 1;
  if (!is_built) return nullptr;
  std::unique_ptr<OSSL_PARAM, decltype(&OSSL_PARAM_free)> made(OSSL_PARAM_BLD_to_param(parts.get()), OSSL_PARAM_free);
  std::unique_ptr<EVP_PKEY_CTX, decltype(&EVP_PKEY_CTX_free)> context(EVP_PKEY_CTX_new_from_name(nullptr, "RSA", nullptr), EVP_PKEY_CTX_free);
  EVP_PKEY* key = nullptr;
  bool is_made = made && context && EVP_PKEY_fromdata_init(context.get()) == 1 &&
                 EVP_PKEY_fromdata(context.get(), &key, EVP_PKEY_PUBLIC_KEY, made.get()) == 1;
  return is_made ? key : nullptr;
}

std::string text_of(const json& key, const char* name) {
  auto found = key.find(name);
  return found != key.end() && found->is_string() ? found->get<std::string>() : "";
}

// Whether a key of a set is one that signs by RS256: an issuer may publish others beside.
bool signs_by_rs256(const json& key) {
  std::string use = text_of(key, "use"), algorithm = text_of(key, "alg");
  return text_of(key, "kty") == "RSA" && (use.empty() || use == "sig") && (algorithm.empty() || algorithm == "RS256");
}

}  // namespace

std::optional<std::string> base64url(const std::string& text) {
  static const std::string kDigits = "ABCDEFGHIJKLMNOPQRSTUVWXYZabcdefghijklmnopqrstuvwxyz0123456789-_";
  std::string bytes;
  unsigned bits = 0;
  int count = 0;
  for (char it : text) {
    size_t digit = kDigits.find(it);
    if (digit == std::string::npos) return std::nullopt;
    bits = (bits << 6 | unsigned(digit)) & 0xffff;
    count += 6;
    if (count >= 8) bytes.push_back(char(bits >> (count -= 8)));
  }
  return text.size() % 4 == 1 ? std::nullopt : std::make_optional(bytes);
}

Keys::Keys(const std::string& file, Form form) : file_(file), form_(form), mark_(mark()), keys_(read()), looked_(std::chrono::steady_clock::now()) {}

Keys::Mark Keys::mark() const {
  struct stat found {};
  if (stat(file_.c_str(), &found) != 0) return {};
  return {found.st_ino, found.st_size, found.st_mtim.tv_sec, found.st_mtim.tv_nsec};
}

Keys::Key Keys::checked(EVP_PKEY* key) const {
  Key made(key, EVP_PKEY_free);
  if (!key || EVP_PKEY_get_base_id(key) != EVP_PKEY_RSA || EVP_PKEY_get_bits(key) < kLeastKeyBits)
    throw std::runtime_error(file_ + ": a key is not of RSA with 2,048 bits or more");
  if (!is_sound(key)) throw std::runtime_error(file_ + ": a key has no sound modulus and exponent");
  return made;
}

std::vector<Keys::Key> Keys::of_pem(const std::string& text) const {
  std::vector<Key> keys;
  std::unique_ptr<BIO, decltype(&BIO_free)> pem(BIO_new_mem_buf(text.data(), int(text.size())), BIO_free);
  while (EVP_PKEY* key = PEM_read_bio_PUBKEY(pem.get(), nullptr, nullptr, nullptr)) keys.push_back(checked(key));
  if (keys.empty()) throw std::runtime_error(file_ + ": has no public key in PEM");
  return keys;
}

std::vector<Keys::Key> Keys::of_jwks(const std::string& text) const {
  json set = json::parse(text, nullptr, false);
  json given = set.is_object() ? set.value("keys", json()) : json();
  if (!given.is_array()) throw std::runtime_error(file_ + ": is no JWKS, which is a JSON object with an array `keys`");
  std::vector<Key> keys;
  for (const json& it : given) {
    if (!it.is_object() || !signs_by_rs256(it)) continue;
    auto modulus = base64url(text_of(it, "n")), exponent = base64url(text_of(it, "e"));
    keys.push_back(checked(modulus && exponent ? rsa_of(*modulus, *exponent) : nullptr));
  }
  if (keys.empty()) throw std::runtime_error(file_ + ": has no key that signs by RS256");
  return keys;
}

std::vector<Keys::Key> Keys::read() const {
  std::string text = contents(file_);
  auto keys = form_ == Form::pem ? of_pem(text) : of_jwks(text);
  if (keys.size() > kMost) throw std::runtime_error(file_ + ": has over 64 keys");
  return keys;
}

// A file that cannot be used leaves the keys as they were, until it changes again.
void Keys::look() {
  auto now = std::chrono::steady_clock::now();
  if (now - looked_ < kEvery) return;
  looked_ = now;
  Mark seen = mark();
  if (seen == mark_) return;
  mark_ = seen;
  try {
    keys_ = read();
    std::cerr << "gateway: " + file_ + ": read anew, keys: " + std::to_string(keys_.size()) + "\n";
  } catch (const std::exception& it) {
    std::cerr << std::string("gateway: the keys stay as they were: ") + it.what() + "\n";
  }
}

bool Keys::have_signed(const std::string& text, const std::string& signature) {
  look();
  auto bytes = [](const std::string& it) { return reinterpret_cast<const unsigned char*>(it.data()); };
  return std::any_of(keys_.begin(), keys_.end(), [&](const Key& key) {
    std::unique_ptr<EVP_MD_CTX, decltype(&EVP_MD_CTX_free)> context(EVP_MD_CTX_new(), EVP_MD_CTX_free);
    return context && EVP_DigestVerifyInit(context.get(), nullptr, EVP_sha256(), nullptr, key.get()) == 1 &&
           EVP_DigestVerify(context.get(), bytes(signature), signature.size(), bytes(text), text.size()) == 1;
  });
}
