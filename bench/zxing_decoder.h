// zxing-cpp 1.4 exports its decoder of a bit matrix, but installs no header for it. What it returns is in memory of the
// caller, and its first members are the vectors of the codewords and of the bytes read. It is dropped without being
// destroyed, since its real destructor isn't known.
#ifndef ZXING_DECODER_H
#define ZXING_DECODER_H

#include <ZXing/BitMatrix.h>

#include <cstdint>
#include <vector>

namespace ZXing {
struct DecoderResult {
    alignas(16) unsigned char all[2048];
    ~DecoderResult() {}
};
namespace DataMatrix {
DecoderResult Decode(const BitMatrix &);
}
} // namespace ZXing

static inline const std::vector<uint8_t> &bytes_of(const ZXing::DecoderResult &result) {
    return reinterpret_cast<const std::vector<uint8_t> *>(&result)[1];
}

#endif
