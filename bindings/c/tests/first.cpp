// The first program of docs/EMBEDDING.md as C++ has it: a session that is closed where its scope ends.
#include "paris.h"

#include <array>
#include <cstdio>
#include <stdexcept>
#include <string>
#include <string_view>
#include <vector>

namespace {

const std::uint8_t *bytes(std::string_view text) { return reinterpret_cast<const std::uint8_t *>(text.data()); }

void check(std::uint32_t status) {
  if (status != PARIS_OK) throw std::runtime_error("status " + std::to_string(status));
}

class Session {
public:
  Session() { check(paris_open(&handle)); }
  ~Session() { paris_close(&handle); }
  Session(const Session &) = delete;
  Session &operator=(const Session &) = delete;

  std::string answer(std::string_view line) {
    std::size_t len = 0;
    check(paris_answer(&handle, bytes(line), line.size(), &len));
    std::vector<std::uint8_t> reply(len + 1);
    check(paris_reply(&handle, reply.data(), len));
    return {reply.begin(), reply.end() - 1};
  }

  void set(std::string_view key, const std::array<std::uint64_t, 4> &numbers) {
    check(paris_set(&handle, bytes(key), key.size(), 0, numbers.data(), numbers.size()));
  }

  std::array<std::uint64_t, 4> get(std::string_view key) {
    std::array<std::uint64_t, 4> room{};
    std::uint64_t told = 0;
    check(paris_get(&handle, bytes(key), key.size(), PARIS_END, room.data(), room.size(), &told));
    return room;
  }

  void settle() {
    std::uint64_t ran = 0;
    check(paris_settle(&handle, &ran));
  }

private:
  paris_handle handle{};
};

} // namespace

int main() {
  Session session;
  for (const char *line : {"set s 4", "field a s 8", "field b s 8", "field c s 8", "insert end u-add-3-1L c a b 8"})
    std::printf("%-32s %s", line, session.answer(line).c_str());
  session.set("a", {10, 20, 30, 250});
  session.set("b", {1, 2, 3, 4});
  session.settle();
  const char *space = "";
  for (std::uint64_t number : session.get("c")) {
    std::printf("%s%llu", space, static_cast<unsigned long long>(number));
    space = " ";
  }
  std::printf("\n");
}
