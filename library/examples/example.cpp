// One printed symbol, one damaged symbol, one refusal, one text with its charset.
//
//     c++ -std=c++17 example.cpp $(pkg-config --cflags --libs ecc200) && ./a.out
#include <ecc200.h>

#include <iostream>
#include <memory>
#include <stdexcept>
#include <string>
#include <string_view>
#include <vector>

struct Refused : std::runtime_error {
    ecc200_fault fault;
    explicit Refused(ecc200_fault why) : std::runtime_error(ecc200_words(why.code)), fault(why) {
    }
};

using Symbol = std::unique_ptr<ecc200_symbol>;
using Reading = std::unique_ptr<ecc200_reading>;

static Symbol write(std::string_view text, const ecc200_how &how = {}, const std::vector<ecc200_mark> &marks = {}) {
    std::vector<uint16_t> items;
    for (unsigned char byte : text)
        items.push_back(byte);
    auto symbol = std::make_unique<ecc200_symbol>();
    if (ecc200_write(items.data(), items.size(), marks.data(), marks.size(), &how, symbol.get()) != ECC200_OK)
        throw Refused(symbol->fault);
    return symbol;
}

static Reading read(const ecc200_symbol &symbol) {
    ecc200_scan scan = {};
    scan.rows = symbol.rows, scan.columns = symbol.columns;
    auto reading = std::make_unique<ecc200_reading>();
    if (ecc200_read(symbol.modules, size_t{scan.rows} * scan.columns, nullptr, 0, &scan, reading.get()) != ECC200_OK)
        throw Refused(reading->fault);
    return reading;
}

static std::string text_of(const ecc200_reading &reading) {
    std::vector<uint8_t> bytes(ECC200_MOST_ITEMS);
    bytes.resize(ecc200_text(&reading, bytes.data(), bytes.size(), nullptr));
    return std::string(bytes.begin(), bytes.end());
}

// A symbol with a quiet zone of one module on all sides.
static void print(const ecc200_symbol &symbol) {
    int rows = symbol.rows, columns = symbol.columns;
    for (int row = -1; row <= rows; row++, std::cout << '\n')
        for (int column = -1; column <= columns; column++) {
            bool inside = row >= 0 && row < rows && column >= 0 && column < columns;
            std::cout << (inside && symbol.modules[row * columns + column] ? "##" : "  ");
        }
}

int main() {
    // a printed symbol
    Symbol symbol = write("Mitsubadoor");
    print(*symbol);

    // a damaged symbol: four modules in one corner
    int side = symbol->columns;
    for (int at = 1; at < 5; at++)
        symbol->modules[at * side + at] ^= 1;
    Reading reading = read(*symbol);
    std::cout << text_of(*reading) << ": " << int{reading->corrected[0]} << " codewords corrected, "
              << reading->border_faults << " border modules wrong\n";

    // a refusal: a symbol that is cut off below
    for (int column = 0; column < side; column++)
        symbol->modules[(side - 1) * side + column] = 0;
    try {
        read(*symbol);
        return 1;
    } catch (const Refused &why) {
        std::cout << "refused with " << why.fault.code << ": " << why.what() << " (" << why.fault.value << ")\n";
    }

    // a text with its charset: ECI 26 is UTF-8
    ecc200_how smallest = {};
    smallest.form = ECC200_SMALLEST, smallest.shape = ECC200_ANY;
    symbol = write("caf\xC3\xA9", smallest, {{26, 0}});
    reading = read(*symbol);
    std::cout << symbol->rows << " x " << symbol->columns << ": ]d" << reading->identifier << ", "
              << reading->item_count << " bytes, ECI " << reading->marks[0].number << " at " << reading->marks[0].place
              << '\n';
}
