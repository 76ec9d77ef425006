import com.google.zxing.BarcodeFormat;
import com.google.zxing.BinaryBitmap;
import com.google.zxing.DecodeHintType;
import com.google.zxing.MultiFormatReader;
import com.google.zxing.NotFoundException;
import com.google.zxing.RGBLuminanceSource;
import com.google.zxing.common.HybridBinarizer;
import java.awt.image.BufferedImage;
import java.io.BufferedReader;
import java.io.File;
import java.io.IOException;
import java.io.InputStreamReader;
import java.lang.management.ManagementFactory;
import java.nio.charset.StandardCharsets;
import java.util.EnumMap;
import java.util.List;
import java.util.Map;
import javax.imageio.ImageIO;

/**
 * Reads the first Data Matrix symbol in each picture whose path comes on standard input, trying hard, and prints for
 * each a line: the nanoseconds of this thread's processor time, and then, if there is a symbol, a space and its
 * message.
 */
public final class ZxingFinds {
    private ZxingFinds() {}

    public static void main(String[] words) throws IOException {
        Map<DecodeHintType, Object> hints = new EnumMap<>(DecodeHintType.class);
        hints.put(DecodeHintType.TRY_HARDER, Boolean.TRUE);
        hints.put(DecodeHintType.POSSIBLE_FORMATS, List.of(BarcodeFormat.DATA_MATRIX));
        BufferedReader paths = new BufferedReader(new InputStreamReader(System.in, StandardCharsets.UTF_8));
        for (String path = paths.readLine(); path != null; path = paths.readLine()) {
            long start = ManagementFactory.getThreadMXBean().getCurrentThreadCpuTime();
            String message = found(path, hints);
            long taken = ManagementFactory.getThreadMXBean().getCurrentThreadCpuTime() - start;
            System.out.println(taken + (message == null ? "" : " " + message));
        }
    }

    /** The message of the first symbol that is found, or null. */
    private static String found(String path, Map<DecodeHintType, Object> hints) throws IOException {
        BufferedImage picture = ImageIO.read(new File(path));
        int width = picture.getWidth();
        int height = picture.getHeight();
        int[] pixels = picture.getRGB(0, 0, width, height, null, 0, width);
        RGBLuminanceSource source = new RGBLuminanceSource(width, height, pixels);
        try {
            return new MultiFormatReader().decode(new BinaryBitmap(new HybridBinarizer(source)), hints).getText();
        } catch (NotFoundException none) {
            return null;
        }
    }
}
