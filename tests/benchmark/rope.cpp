// The C++ library's rope, for insert and delete.
#include <cstddef>
#include <cstdint>
#include <ext/rope>

using Rope = __gnu_cxx::crope;

extern "C" {
void *rope_of(const uint8_t *marks, size_t many) { return new Rope(reinterpret_cast<const char *>(marks), many); }
void rope_free(void *rope) { delete static_cast<Rope *>(rope); }
void rope_insert(void *rope, size_t place, uint8_t mark) { static_cast<Rope *>(rope)->insert(place - 1, static_cast<char>(mark)); }
uint8_t rope_delete(void *rope, size_t place) {
    Rope &marks = *static_cast<Rope *>(rope);
    uint8_t mark = static_cast<uint8_t>(marks[place - 1]);
    marks.erase(place - 1, 1);
    return mark;
}
}
