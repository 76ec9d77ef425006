// Times zxing-cpp: with `read GRIDS LINES ROUNDS` its decoder of a bit matrix, with `write LINES GRIDS ROUNDS` its
// encoder, which chooses among all encodations. Before the timing starts, the grids are made into bit matrices and the
// lines into strings, and a first pass warms it up. Prints how many answers are wrong, and the best round's seconds of
// processor time.
#include <ZXing/MultiFormatWriter.h>

#include <algorithm>
#include <cstdint>
#include <cstdio>
#include <cstdlib>
#include <ctime>
#include <fstream>
#include <string>
#include <vector>

#include "zxing_decoder.h"

using Lines = std::vector<std::string>;
using Grids = std::vector<ZXing::BitMatrix>;

static Lines lines_of(const char *path) {
    std::ifstream file(path);
    Lines lines;
    for (std::string line; std::getline(file, line);) lines.push_back(line);
    return lines;
}

static ZXing::BitMatrix matrix_of(const Lines &rows) {
    int side = (int)rows.size();
    ZXing::BitMatrix matrix(side, side);
    for (int row = 0; row < side; row++)
        for (int column = 0; column < side; column++)
            if (rows[row][column] == '1') matrix.set(column, row);
    return matrix;
}

static Grids grids_of(const char *path) {
    Grids grids;
    Lines rows;
    for (const std::string &line : lines_of(path)) {
        if (!line.empty()) {
            rows.push_back(line);
            continue;
        }
        grids.push_back(matrix_of(rows));
        rows.clear();
    }
    return grids;
}

static int wrong_of(const Grids &grids, const Lines &lines) {
    int wrong = grids.size() != lines.size();
    for (size_t i = 0; i < std::min(grids.size(), lines.size()); i++) {
        auto answer = ZXing::DataMatrix::Decode(grids[i]);
        const auto &bytes = bytes_of(answer);
        wrong += !std::equal(bytes.begin(), bytes.end(), lines[i].begin(), lines[i].end());
    }
    return wrong;
}

static Grids written(const Lines &lines) {
    Grids grids;
    grids.reserve(lines.size());
    for (const std::string &line : lines) {
        ZXing::MultiFormatWriter writer(ZXing::BarcodeFormat::DataMatrix);
        writer.setMargin(0);
        grids.push_back(writer.encode(line, 0, 0));
    }
    return grids;
}

static void print(const Grids &grids, const char *path) {
    std::ofstream file(path);
    for (const ZXing::BitMatrix &grid : grids) {
        for (int row = 0; row < grid.height(); row++) {
            for (int column = 0; column < grid.width(); column++) file.put(grid.get(column, row) ? '1' : '0');
            file.put('\n');
        }
        file.put('\n');
    }
}

static double now() {
    timespec time;
    clock_gettime(CLOCK_PROCESS_CPUTIME_ID, &time);
    return (double)time.tv_sec + 1e-9 * (double)time.tv_nsec;
}

template <class Work> static double best(int rounds, Work work) {
    double least = 1e9;
    for (int round = 0; round < rounds; round++) {
        double from = now();
        work();
        least = std::min(least, now() - from);
    }
    return least;
}

int main(int count, char **words) {
    if (count < 5) return 1;
    bool reads = words[1] == std::string("read");
    Lines lines = lines_of(words[reads ? 3 : 2]);
    int rounds = std::max(std::atoi(words[4]), 1);
    if (reads) {
        Grids grids = grids_of(words[2]);
        int wrong = wrong_of(grids, lines);
        double seconds = best(rounds, [&] { wrong = std::max(wrong, wrong_of(grids, lines)); });
        std::printf("%d %.9f\n", wrong, seconds);
        return 0;
    }
    print(written(lines), words[3]);
    std::printf("0 %.9f\n", best(rounds, [&] { written(lines); }));
}
