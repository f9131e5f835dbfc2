// What the JDK answers for each line of the standard input, which is UTF-8.
//   java Jdk.java builder   new Locale.Builder().setLanguageTag(text).build().toLanguageTag()
//   java Jdk.java version   the version
import java.io.PrintStream;
import java.nio.charset.StandardCharsets;
import java.util.IllformedLocaleException;
import java.util.Locale;

public class Jdk {
    static String answer(String text) {
        try {
            return new Locale.Builder().setLanguageTag(text).build().toLanguageTag();
        } catch (IllformedLocaleException refusal) {
            return "! " + refusal.getMessage();
        }
    }

    public static void main(String[] words) throws Exception {
        PrintStream out = new PrintStream(System.out, true, StandardCharsets.UTF_8);
        if (words[0].equals("version")) {
            out.print("JDK " + System.getProperty("java.version") + "\n");
            return;
        }
        String all = new String(System.in.readAllBytes(), StandardCharsets.UTF_8);
        String[] lines = all.split("\n", -1);
        for (int line = 0; line + 1 < lines.length; line++) {
            out.print(answer(lines[line]) + "\n");
            out.flush();
        }
    }
}
