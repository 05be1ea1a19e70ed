#include "server.h"

#include <cstring>
#include <stdexcept>

#include <netinet/in.h>
#include <sys/socket.h>
#include <sys/stat.h>
#include <sys/un.h>
#include <unistd.h>

namespace {

int listen_at(const sockaddr* address, socklen_t size, const std::string& name) {
  int handle = socket(address->sa_family, SOCK_STREAM | SOCK_CLOEXEC, 0), yes = 1;
  if (address->sa_family == AF_INET) setsockopt(handle, SOL_SOCKET, SO_REUSEADDR, &yes, sizeof yes);
  if (handle >= 0 && bind(handle, address, size) == 0 && listen(handle, SOMAXCONN) == 0) return handle;
  close(handle);
  throw std::runtime_error(name + " is taken or not allowed");
}

// Takes away the socket of a program that has ended: where none listens at it.
void forget_old(const sockaddr_un& address) {
  struct stat found {};
  if (lstat(address.sun_path, &found) != 0 || !S_ISSOCK(found.st_mode)) return;
  int handle = socket(AF_UNIX, SOCK_STREAM | SOCK_CLOEXEC, 0);
  bool is_old = connect(handle, reinterpret_cast<const sockaddr*>(&address), sizeof address) != 0 && errno == ECONNREFUSED;
  close(handle);
  if (is_old) unlink(address.sun_path);
}

}  // namespace

int listening_port(int port) {
  sockaddr_in address{};
  address.sin_family = AF_INET;
  address.sin_port = htons(uint16_t(port));
  address.sin_addr.s_addr = htonl(INADDR_LOOPBACK);
  return listen_at(reinterpret_cast<const sockaddr*>(&address), sizeof address, "port " + std::to_string(port));
}

int listening_path(const std::string& path) {
  sockaddr_un address{};
  if (path.empty() || path.size() >= sizeof address.sun_path) throw std::runtime_error(path + ": no path of a socket, which has 1 to 107 bytes");
  address.sun_family = AF_UNIX;
  std::memcpy(address.sun_path, path.data(), path.size());
  forget_old(address);
  // nobody may connect before it has its mode
  mode_t before = umask(0777);
  int handle = -1;
  try {
    handle = listen_at(reinterpret_cast<const sockaddr*>(&address), sizeof address, path);
  } catch (...) {
    umask(before);
    throw;
  }
  umask(before);
  if (chmod(path.c_str(), 0660) != 0) throw std::runtime_error(path + ": its mode cannot be set");
  return handle;
}
