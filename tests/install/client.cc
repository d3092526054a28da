// A client in C++11 of the installed library; scripts/test-install builds it. Decodes document 01's frame and prints the line that the
// program prints for it, then a refusal in words and the version. Takes every macro of the header once, each as a constant expression.
#include <petsivola.h>

#include <array>
#include <cstdio>
#include <string>

namespace {

constexpr uint8_t first = PETSIVOLA_FIRST(2, 2, 0);
constexpr size_t columns = 3, checks = 1, edges = 3;

constexpr std::array<uint8_t, PETSIVOLA_CODE_LENGTH(checks, edges)> code{{
    first, 0, columns, checks, 16, 1,
    edges, 0, 0, 1, 0, 1, 1, 0, 2, 1,
}};
constexpr std::array<uint8_t, PETSIVOLA_FRAME_LENGTH(first, columns)> frame{{
    5, 0, 9, 7, 0, 4, 8, 3, 0, 6, 2, 10,
}};

// The other macros, with what the header's comments say of them.
static_assert(PETSIVOLA_Q(0x36) == 64, "q");
static_assert(PETSIVOLA_DEVIATIONS(0x22) == 3, "k");
static_assert(PETSIVOLA_GREATEST(0x12) == 1, "edition");
static_assert(PETSIVOLA_RECORD_LENGTH(first, edges) == 18, "record");
static_assert(PETSIVOLA_EXPANSION_LENGTH(first, edges) == 12, "expansion");
static_assert(PETSIVOLA_DISPLAY_LENGTH(edges) == 3, "display");
static_assert(PETSIVOLA_MESSAGE_LENGTH(columns, checks) == 2, "message");
static_assert(PETSIVOLA_MOST_RECORD == 473, "longest record");
static_assert(PETSIVOLA_MOST_EXPANSION == 2048, "longest expansion");
static_assert(PETSIVOLA_MOST_DISPLAY == 32, "longest display");
static_assert(PETSIVOLA_MOST_SYMBOLS == 256, "most symbols");
static_assert(PETSIVOLA_MOST_MESSAGE == 255, "longest message");
static_assert(PETSIVOLA_MOST_COSTS == 16384, "most costs");
static_assert(PETSIVOLA_MOST_STORE == 57472, "longest store");
static_assert(PETSIVOLA_MOST_MARGINS == 256, "most margins");
static_assert(PETSIVOLA_MOST_CODE == 3206, "longest code line");
static_assert(PETSIVOLA_MOST_LINE == 32768, "longest line");
static_assert(PETSIVOLA_MOST_CHANNELS == 8, "most channels");
static_assert((PETSIVOLA_WINDOW_RESULT_BIT | PETSIVOLA_WINDOW_REFUSAL_BIT) == 3, "bits of mask and pending");

struct Decoded {
    uint32_t result;
    std::array<uint8_t, columns> symbols;
    std::array<uint16_t, frame.size()> costs;
    std::array<uint8_t, PETSIVOLA_STORE_LENGTH(first, checks, edges)> store;
    std::array<uint16_t, PETSIVOLA_MARGINS_LENGTH(columns)> margins;
};

Decoded decode(size_t length)
{
    Decoded out{};

    out.result = petsivola_decode(code.data(), code.size(), frame.data(), length, out.symbols.data(), out.symbols.size(),
                                  out.costs.data(), out.costs.size(), out.store.data(), out.store.size(),
                                  out.margins.data(), out.margins.size());
    return out;
}

}

int main()
{
    const Decoded decoded = decode(frame.size());
    const uint32_t refused = decode(frame.size() - 1).result;
    const std::string version = std::to_string(PETSIVOLA_VERSION_MAJOR) + "." + std::to_string(PETSIVOLA_VERSION_MINOR) + "." +
        std::to_string(PETSIVOLA_VERSION_PATCH);

    std::printf("%02X%02X", unsigned(PETSIVOLA_NUMBER(decoded.result)), unsigned(PETSIVOLA_VALUE(decoded.result)));
    for (unsigned symbol : decoded.symbols) {
        std::printf("%02X", symbol);
    }
    std::printf("\n%s\n%s\n", petsivola_number_text(PETSIVOLA_NUMBER(refused)), PETSIVOLA_VERSION);
    return version != PETSIVOLA_VERSION;
}
