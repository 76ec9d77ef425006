// Writes and reads marks by ZXing, one a line of standard input. With `write`, a line is a side and the bytes of a
// message in hexadecimal digits, and the answer the rows of the mark in that size, joined by commas, or `-`; with
// side 0 in the smallest square that ZXing finds, with -1 in its usual shape. With `read`, a line is such rows, and the
// answer the bytes in hexadecimal digits, or `-`.
import com.google.zxing.BarcodeFormat;
import com.google.zxing.Dimension;
import com.google.zxing.EncodeHintType;
import com.google.zxing.common.BitMatrix;
import com.google.zxing.datamatrix.DataMatrixWriter;
import com.google.zxing.datamatrix.decoder.Decoder;
import com.google.zxing.datamatrix.encoder.SymbolShapeHint;
import java.io.BufferedReader;
import java.io.InputStreamReader;
import java.nio.charset.StandardCharsets;
import java.util.HashMap;
import java.util.Map;

public class Zxing {
    @SuppressWarnings("deprecation") // of sides that are asked for
    private static String write(String line) throws Exception {
        String[] words = line.split(" ", 2);
        int side = Integer.parseInt(words[0]);
        StringBuilder text = new StringBuilder();
        for (int at = 0; at < words[1].length(); at += 2) {
            text.append((char) Integer.parseInt(words[1].substring(at, at + 2), 16));
        }
        Map<EncodeHintType, Object> hints = new HashMap<>();
        if (side >= 0) {
            hints.put(EncodeHintType.DATA_MATRIX_SHAPE, SymbolShapeHint.FORCE_SQUARE);
        }
        if (side > 0) {
            hints.put(EncodeHintType.MIN_SIZE, new Dimension(side, side));
            hints.put(EncodeHintType.MAX_SIZE, new Dimension(side, side));
        }
        BitMatrix matrix = new DataMatrixWriter().encode(text.toString(), BarcodeFormat.DATA_MATRIX, 0, 0, hints);
        StringBuilder rows = new StringBuilder();
        for (int row = 0; row < matrix.getHeight(); row++) {
            for (int column = 0; column < matrix.getWidth(); column++) {
                rows.append(matrix.get(column, row) ? '1' : '0');
            }
            rows.append(row + 1 < matrix.getHeight() ? "," : "");
        }
        return rows.toString();
    }

    private static String read(String line) throws Exception {
        String[] rows = line.split(",");
        boolean[][] modules = new boolean[rows.length][rows[0].length()];
        for (int row = 0; row < rows.length; row++) {
            for (int column = 0; column < rows[row].length(); column++) {
                modules[row][column] = rows[row].charAt(column) == '1';
            }
        }
        StringBuilder said = new StringBuilder();
        for (byte character : new Decoder().decode(modules).getText().getBytes(StandardCharsets.ISO_8859_1)) {
            said.append(String.format("%02X", character & 255));
        }
        return said.toString();
    }

    public static void main(String[] arguments) throws Exception {
        BufferedReader lines = new BufferedReader(new InputStreamReader(System.in));
        for (String line = lines.readLine(); line != null; line = lines.readLine()) {
            String answer;
            try {
                answer = arguments[0].equals("write") ? write(line) : read(line);
            } catch (Exception refusal) {
                answer = "-";
            }
            System.out.println(answer);
        }
    }
}
