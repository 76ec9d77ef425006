import com.google.zxing.ChecksumException;
import com.google.zxing.FormatException;
import com.google.zxing.common.BitMatrix;
import com.google.zxing.datamatrix.decoder.Decoder;
import java.io.IOException;
import java.lang.management.ManagementFactory;
import java.lang.management.ThreadMXBean;
import java.nio.charset.StandardCharsets;
import java.nio.file.Files;
import java.nio.file.Path;
import java.util.ArrayList;
import java.util.List;

/**
 * Times ZXing's decoder on grids that are already bit matrices, and compares its answers with the lines written.
 *
 * <p>It is called with the file of grids, the file of lines, and the number of rounds. It warms up, then times the
 * rounds, and prints the largest number of wrong answers in a round and the best round's nanoseconds of this thread's
 * processor time, so that compilation and garbage collection, which have threads of their own, don't count.
 */
public final class ZxingReads {
    private static final ThreadMXBean THREADS = ManagementFactory.getThreadMXBean();
    private static final Decoder DECODER = new Decoder();

    private ZxingReads() {}

    public static void main(String[] words) throws IOException {
        List<BitMatrix> grids = grids(Files.readString(Path.of(words[0]), StandardCharsets.ISO_8859_1));
        String[] lines = Files.readString(Path.of(words[1]), StandardCharsets.ISO_8859_1).split("\n");
        if (grids.size() != lines.length) {
            throw new IllegalArgumentException("there isn't a line for each grid");
        }
        warm(grids, lines);
        int wrong = 0;
        long best = Long.MAX_VALUE;
        for (int round = Integer.parseInt(words[2]); round > 0; round--) {
            long start = THREADS.getCurrentThreadCpuTime();
            wrong = Math.max(wrong, wrong(grids, lines));
            best = Math.min(best, THREADS.getCurrentThreadCpuTime() - start);
        }
        System.out.println(wrong + " " + best);
    }

    /** Reads all grids again and again, until ten rounds in a row are no faster than the best before them. */
    private static void warm(List<BitMatrix> grids, String[] lines) {
        long best = Long.MAX_VALUE;
        int slower = 0;
        while (slower < 10) {
            long start = THREADS.getCurrentThreadCpuTime();
            wrong(grids, lines);
            long taken = THREADS.getCurrentThreadCpuTime() - start;
            slower = taken < best ? 0 : slower + 1;
            best = Math.min(best, taken);
        }
    }

    /** Reads all grids, and counts those that are refused or read as another line than the one written. */
    private static int wrong(List<BitMatrix> grids, String[] lines) {
        int wrong = 0;
        for (int i = 0; i < lines.length; i++) {
            try {
                if (!DECODER.decode(grids.get(i)).getText().equals(lines[i])) {
                    wrong++;
                }
            } catch (ChecksumException | FormatException refused) {
                wrong++;
            }
        }
        return wrong;
    }

    /** The bit matrices of a text of grids. */
    private static List<BitMatrix> grids(String text) {
        List<BitMatrix> grids = new ArrayList<>();
        for (String record : text.split("\n\n")) {
            String[] rows = record.split("\n");
            BitMatrix grid = new BitMatrix(rows.length);
            for (int row = 0; row < rows.length; row++) {
                for (int column = 0; column < rows.length; column++) {
                    if (rows[row].charAt(column) == '1') {
                        grid.set(column, row);
                    }
                }
            }
            grids.add(grid);
        }
        return grids;
    }
}
