// Times the calls of the library ecc200 in process, beside libdmtx, zint and zxing-cpp if they are compiled in
// (WITH_DMTX, WITH_ZINT, WITH_ZXING), on the same symbols: microseconds of processor time a call, the best of some
// rounds. Each answer is compared with what was written. Prints a line for each kind of work: the size by its rows and
// columns, work, library, microseconds. Given a file of messages, each a line of hexadecimal digits, it writes these
// too, as small as each encoder does, and prints another line for each encoder: the sizes among which it chooses,
// library, microseconds a message, the modules of all symbols, and how many messages all encoders write.
#include <ecc200.h>

#include <algorithm>
#include <cstdio>
#include <cstdlib>
#include <cstring>
#include <ctime>
#include <exception>
#include <fstream>
#include <random>
#include <string>
#include <vector>

#ifdef WITH_DMTX
#include <dmtx.h>
#endif
#ifdef WITH_ZINT
#include <zint.h>
#endif
#ifdef WITH_ZXING
#include <ZXing/MultiFormatWriter.h>

#include "zxing_decoder.h"
#endif

struct Mark {
    std::string text;
    std::vector<uint16_t> items;
    uint16_t rows, columns;
    bool is_extension; // a size of ISO/IEC 21471
    std::vector<uint8_t> clean, damaged;
};

static std::mt19937 chance(7);
static ecc200_symbol symbol;
static ecc200_reading reading;
static ecc200_inspection inspection;
static int rounds = 30;

[[noreturn]] static void die(const char *why) {
    std::fprintf(stderr, "%s\n", why);
    std::exit(1);
}

// Writes the text of a mark in a symbol of its size, and reads one of its size.
static uint16_t write(const Mark &mark) {
    ecc200_how how = {};
    how.shape = ECC200_ONE, how.rows = mark.rows, how.columns = mark.columns;
    return ecc200_write(mark.items.data(), mark.items.size(), nullptr, 0, &how, &symbol);
}

// How a symbol of a mark is read: with a border limit, in the usual extent.
static ecc200_scan scan_of(const Mark &mark, uint16_t limit) {
    return {mark.rows, mark.columns, limit, 0, ECC200_USUAL};
}

static uint16_t read(const std::vector<uint8_t> &modules, const Mark &mark, uint16_t limit) {
    const ecc200_scan scan = scan_of(mark, limit);
    return ecc200_read(modules.data(), modules.size(), nullptr, 0, &scan, &reading);
}

// Whether the smallest square that holds the text of a mark is its own size, so that its symbol is the normal grid.
static bool is_normal(const Mark &mark) {
    const ecc200_how how = {};
    return !ecc200_write(mark.items.data(), mark.items.size(), nullptr, 0, &how, &symbol) && symbol.rows == mark.rows &&
           symbol.columns == mark.columns;
}

// A mark of letters and digits, in a square the smallest one. In its damaged copy as many codewords of each block are
// wrong as can be corrected, each by one module.
static Mark made(const ecc200_size &size, size_t length) {
    Mark mark;
    mark.rows = size.rows;
    mark.columns = size.columns;
    mark.is_extension = size.extension != 0;
    do {
        mark.text.clear();
        for (size_t i = 0; i < length; i++)
            mark.text += (char)(chance() % 3 ? 'A' + chance() % 26 : '0' + chance() % 10);
        mark.items.assign(mark.text.begin(), mark.text.end());
    } while ((size.rows == size.columns && !is_normal(mark)) || write(mark));
    mark.clean.assign(symbol.modules, symbol.modules + size.rows * size.columns);
    mark.damaged = mark.clean;
    for (int done = 0; done < size.limit * size.blocks;) {
        size_t at = chance() % mark.damaged.size();
        mark.damaged[at] ^= 1;
        int corrected = 0;
        if (!read(mark.damaged, mark, 0))
            for (int b = 0; b < size.blocks; b++) corrected += reading.corrected[b];
        if (corrected == done + 1)
            done++;
        else
            mark.damaged[at] ^= 1;
    }
    return mark;
}

static double now() {
    timespec at;
    clock_gettime(CLOCK_PROCESS_CPUTIME_ID, &at);
    return at.tv_sec + 1e-9 * at.tv_nsec;
}

template <class Work> static void timed(const char *work, const char *who, const std::vector<Mark> &marks, Work one) {
    double best = 1e9;
    for (int i = 0; i < rounds; i++) {
        double from = now();
        for (const Mark &mark : marks) one(mark);
        best = std::min(best, now() - from);
    }
    std::printf("%dx%d|%s|%s|%.2f\n", marks[0].rows, marks[0].columns, work, who, 1e6 * best / marks.size());
}

static void read_right(const std::vector<uint8_t> &modules, const Mark &mark) {
    if (read(modules, mark, ECC200_USUAL_LIMIT) || reading.item_count != mark.items.size() ||
        !std::equal(mark.items.begin(), mark.items.end(), reading.items))
        die("ecc200 reads something else");
}

static void time_ours(const std::vector<Mark> &marks) {
    timed("read", "ecc200", marks, [](const Mark &mark) { read_right(mark.clean, mark); });
    timed("read, damaged", "ecc200", marks, [](const Mark &mark) { read_right(mark.damaged, mark); });
    timed("normal, damaged", "ecc200", marks, [](const Mark &mark) {
        const auto &damaged = mark.damaged;
        const ecc200_scan scan = scan_of(mark, ECC200_GIVEN_LIMIT);
        if (ecc200_normal(damaged.data(), damaged.size(), nullptr, 0, &scan, ECC200_ASCII, &symbol) ||
            (mark.rows == mark.columns && std::memcmp(symbol.modules, mark.clean.data(), mark.clean.size())))
            die("ecc200 normalises to something else");
    });
    timed("inspect, damaged", "ecc200", marks, [](const Mark &mark) {
        const auto &damaged = mark.damaged;
        if (ecc200_inspect(damaged.data(), damaged.size(), nullptr, 0, mark.rows, mark.columns, &inspection))
            die("ecc200 refuses to inspect");
    });
    timed("write", "ecc200", marks, [](const Mark &mark) {
        if (write(mark) || std::memcmp(symbol.modules, mark.clean.data(), mark.clean.size()))
            die("ecc200 writes something else");
    });
}

#ifdef WITH_ZXING
static void time_zxing(const std::vector<Mark> &marks) {
    std::vector<ZXing::BitMatrix> clean, damaged;
    for (const Mark &mark : marks)
        for (auto *list : {&clean, &damaged}) {
            ZXing::BitMatrix bits(mark.columns, mark.rows);
            const auto &modules = list == &clean ? mark.clean : mark.damaged;
            for (int i = 0; i < mark.rows * mark.columns; i++)
                if (modules[i]) bits.set(i % mark.columns, i / mark.columns);
            list->push_back(std::move(bits));
        }
    auto decode = [&](const std::vector<ZXing::BitMatrix> &list) {
        return [&](const Mark &mark) {
            auto result = ZXing::DataMatrix::Decode(list[&mark - marks.data()]);
            const auto &bytes = bytes_of(result);
            if (bytes.size() != mark.text.size() || std::memcmp(bytes.data(), mark.text.data(), bytes.size()))
                die("zxing-cpp reads something else");
        };
    };
    timed("read", "zxing-cpp", marks, decode(clean));
    timed("read, damaged", "zxing-cpp", marks, decode(damaged));
    timed("write", "zxing-cpp, its encodation", marks, [](const Mark &mark) {
        ZXing::MultiFormatWriter writer(ZXing::BarcodeFormat::DataMatrix);
        writer.setMargin(0);
        if (writer.encode(mark.text, 0, 0).width() < 2) die("zxing-cpp writes nothing");
    });
}
#endif

#ifdef WITH_DMTX
// Reads from a picture of five pixels a module in which libdmtx has already found the region; its search isn't timed.
static void time_dmtx_reading(const char *work, const std::vector<Mark> &marks, std::vector<uint8_t> Mark::*modules) {
    struct Found {
        DmtxDecode *decode;
        DmtxRegion *region;
    };
    std::vector<std::vector<unsigned char>> pictures(marks.size());
    std::vector<Found> found;
    std::vector<Mark> seen;
    const int scale = 5, quiet = 2;
    for (size_t i = 0; i < marks.size() && seen.size() < 100; i++) {
        int rows = marks[i].rows, columns = marks[i].columns;
        int across = (columns + 2 * quiet) * scale, down = (rows + 2 * quiet) * scale;
        pictures[i].assign(across * down, 255);
        for (int r = 0; r < rows * scale; r++)
            for (int c = 0; c < columns * scale; c++)
                if ((marks[i].*modules)[r / scale * columns + c / scale])
                    pictures[i][(r + quiet * scale) * across + c + quiet * scale] = 0;
        Found f;
        f.decode = dmtxDecodeCreate(dmtxImageCreate(pictures[i].data(), across, down, DmtxPack8bppK), 1);
        DmtxTime end = dmtxTimeAdd(dmtxTimeNow(), 500);
        f.region = dmtxRegionFindNext(f.decode, &end);
        DmtxMessage *message = f.region ? dmtxDecodeMatrixRegion(f.decode, f.region, -1) : nullptr;
        if (message && !std::memcmp(message->output, marks[i].text.data(), marks[i].text.size()))
            found.push_back(f), seen.push_back(marks[i]);
        if (message) dmtxMessageDestroy(&message);
    }
    if (seen.empty()) return;
    timed(work, "libdmtx, from its region", seen, [&](const Mark &mark) {
        const Found &f = found[&mark - seen.data()];
        DmtxMessage *message = dmtxDecodeMatrixRegion(f.decode, f.region, -1);
        if (!message) die("libdmtx reads nothing");
        dmtxMessageDestroy(&message);
    });
}

static void time_dmtx(const std::vector<Mark> &marks) {
    time_dmtx_reading("read", marks, &Mark::clean);
    time_dmtx_reading("read, damaged", marks, &Mark::damaged);
    timed("write", "libdmtx, ASCII", marks, [](const Mark &mark) {
        DmtxEncode *encode = dmtxEncodeCreate();
        bool is_square = mark.rows == mark.columns;
        dmtxEncodeSetProp(encode, DmtxPropSizeRequest, is_square ? DmtxSymbolSquareAuto : DmtxSymbolRectAuto);
        dmtxEncodeSetProp(encode, DmtxPropScheme, DmtxSchemeAscii);
        dmtxEncodeSetProp(encode, DmtxPropModuleSize, 1);
        dmtxEncodeSetProp(encode, DmtxPropMarginSize, 1);
        if (!dmtxEncodeDataMatrix(encode, (int)mark.text.size(), (unsigned char *)mark.text.data()))
            die("libdmtx writes nothing");
        dmtxEncodeDestroy(&encode);
    });
}
#endif

#ifdef WITH_ZINT
static void time_zint(const std::vector<Mark> &marks) {
    timed("write", "zint, its encodation", marks, [](const Mark &mark) {
        zint_symbol *made = ZBarcode_Create();
        made->symbology = BARCODE_DATAMATRIX;
        made->option_3 = mark.is_extension ? DM_DMRE : mark.rows == mark.columns ? DM_SQUARE : 0;
        if (ZBarcode_Encode(made, (unsigned char *)mark.text.data(), (int)mark.text.size()) >= ZINT_ERROR)
            die("zint writes nothing");
        ZBarcode_Delete(made);
    });
}
#endif

// ---- Messages in small symbols

// An encoder, the sizes among which it chooses, and how many modules its symbol of a message has: 0 if it refuses it.
struct Encoder {
    const char *sizes, *who;
    size_t (*modules)(const std::string &message);
};

template <uint16_t form, uint16_t shape> static size_t ours(const std::string &message) {
    ecc200_how how = {};
    how.form = form, how.shape = shape;
    bool is_written = !ecc200_write_bytes((const uint8_t *)message.data(), message.size(), &how, &symbol);
    return is_written ? (size_t)symbol.rows * symbol.columns : 0;
}

#ifdef WITH_ZINT
template <int sizes, int mode> static size_t by_zint(const std::string &message) {
    zint_symbol *made = ZBarcode_Create();
    made->symbology = BARCODE_DATAMATRIX;
    made->input_mode = mode;
    made->option_3 = sizes;
    bool is_written = ZBarcode_Encode(made, (unsigned char *)message.data(), (int)message.size()) < ZINT_ERROR;
    size_t modules = is_written ? (size_t)made->rows * made->width : 0;
    ZBarcode_Delete(made);
    return modules;
}
#endif

#ifdef WITH_ZXING
static size_t by_zxing(const std::string &message) {
    ZXing::MultiFormatWriter writer(ZXing::BarcodeFormat::DataMatrix);
    writer.setMargin(0);
    std::wstring text;
    for (unsigned char byte : message) text += (wchar_t)byte;
    try {
        auto matrix = writer.encode(text, 0, 0);
        return (size_t)matrix.width() * matrix.height();
    } catch (const std::exception &) {
        return 0;
    }
}
#endif

#ifdef WITH_DMTX
template <int scheme> static size_t by_dmtx(const std::string &message) {
    DmtxEncode *encode = dmtxEncodeCreate();
    dmtxEncodeSetProp(encode, DmtxPropSizeRequest, DmtxSymbolSquareAuto);
    dmtxEncodeSetProp(encode, DmtxPropScheme, scheme);
    dmtxEncodeSetProp(encode, DmtxPropModuleSize, 1);
    dmtxEncodeSetProp(encode, DmtxPropMarginSize, 1);
    bool is_written = dmtxEncodeDataMatrix(encode, (int)message.size(), (unsigned char *)message.data());
    size_t side = is_written ? encode->region.symbolRows : 0;
    dmtxEncodeDestroy(&encode);
    return side * side;
}
#endif

static const Encoder ENCODERS[] = {
    {"squares", "ecc200", ours<ECC200_SMALLEST, ECC200_SQUARE>},
    {"squares", "ecc200, ASCII", ours<ECC200_ASCII, ECC200_SQUARE>},
#ifdef WITH_ZINT
    {"squares", "zint", by_zint<DM_SQUARE, DATA_MODE>},
    {"squares", "zint, fast", by_zint<DM_SQUARE, DATA_MODE | FAST_MODE>},
#endif
#ifdef WITH_DMTX
    {"squares", "libdmtx, best", by_dmtx<DmtxSchemeAutoBest>},
    {"squares", "libdmtx, ASCII", by_dmtx<DmtxSchemeAscii>},
#endif
    {"all sizes", "ecc200", ours<ECC200_SMALLEST, ECC200_ANY>},
#ifdef WITH_ZINT
    {"all sizes", "zint", by_zint<DM_DMRE, DATA_MODE>},
#endif
#ifdef WITH_ZXING
    {"all sizes", "zxing-cpp, no extension", by_zxing},
#endif
};

static bool is_written_by_all(const std::string &message) {
    return std::all_of(std::begin(ENCODERS), std::end(ENCODERS),
                       [&](const Encoder &encoder) { return encoder.modules(message) != 0; });
}

// Those messages of a file that each encoder writes.
static std::vector<std::string> messages_of(const char *path) {
    std::vector<std::string> messages;
    std::ifstream file(path);
    for (std::string line; std::getline(file, line);) {
        std::string message;
        for (size_t i = 0; i + 1 < line.size(); i += 2) message += (char)std::stoi(line.substr(i, 2), nullptr, 16);
        if (is_written_by_all(message)) messages.push_back(message);
    }
    return messages;
}

static void time_messages(const char *path) {
    const std::vector<std::string> messages = messages_of(path);
    if (messages.empty()) die("no message is written by all");
    for (const Encoder &encoder : ENCODERS) {
        double best = 1e9;
        size_t modules = 0;
        for (int i = 0; i < rounds; i++) {
            double from = now();
            modules = 0;
            for (const std::string &message : messages) modules += encoder.modules(message);
            best = std::min(best, now() - from);
        }
        std::printf("%s|%s|%.2f|%zu|%zu\n", encoder.sizes, encoder.who, 1e6 * best / messages.size(), modules,
                    messages.size());
    }
}

int main(int argc, char **argv) {
    if (argc > 1) rounds = std::max(1, std::atoi(argv[1]));
    if (argc > 2) time_messages(argv[2]);
    static ecc200_size_table table;
    ecc200_sizes(&table);
    const struct {
        uint16_t rows, columns;
        size_t length, count;
    } sets[] = {{52, 52, 180, 200},   {14, 14, 8, 1000},   {8, 32, 9, 1000},    {16, 48, 45, 500},
                {8, 144, 60, 500},    {26, 64, 110, 300},  {104, 104, 800, 50}, {120, 120, 1000, 50},
                {132, 132, 1250, 50}, {144, 144, 1500, 50}};
    for (const auto &set : sets) {
        const ecc200_size *size = std::find_if(table.sizes, table.sizes + ECC200_SIZE_COUNT, [&](const ecc200_size &s) {
            return s.rows == set.rows && s.columns == set.columns;
        });
        std::vector<Mark> marks;
        while (marks.size() < set.count) marks.push_back(made(*size, set.length));
        time_ours(marks);
#ifdef WITH_ZXING
        time_zxing(marks);
#endif
#ifdef WITH_DMTX
        if (!size->extension) time_dmtx(marks); // which knows no others
#endif
#ifdef WITH_ZINT
        time_zint(marks);
#endif
    }
}
